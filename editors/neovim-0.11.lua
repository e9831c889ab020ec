-- Neovim 0.11 or later, by its own settings of servers; a line in init.lua that reads this file is enough:
--   dofile(vim.fn.expand("~/.local/share/abnf_ls/editors/neovim-0.11.lua"))
-- The first statements are the server, which runs beside others in Markdown and XML. The rest is that a rename proposes the whole name, gd,
-- and colours. The other keys are Neovim's: grr, grn, gra, gO and K. Faults are marked as neovim.lua says, which serves there too, and has
-- which files are drafts.
vim.filetype.add({ extension = { abnf = "abnf" } })
vim.lsp.config("abnf_ls", {
  cmd = { "/path/to/abnf_ls/out/abnf_ls" },
  filetypes = { "abnf", "markdown", "xml" },
  init_options = { drafts = true },
})
vim.lsp.enable("abnf_ls")
local function rename() -- it proposes the word under the cursor: the whole name
  local words = vim.bo.iskeyword
  vim.cmd("setlocal iskeyword+=-")
  vim.lsp.buf.rename()
  vim.bo.iskeyword = words
end
vim.api.nvim_create_autocmd("FileType", {
  pattern = { "abnf", "markdown", "xml" },
  callback = function(args)
    if args.match == "abnf" then
      vim.bo[args.buf].commentstring = "; %s"
      vim.cmd("setlocal iskeyword+=-")
    elseif not vim.fn.fnamemodify(args.file, ":t"):find("^draft%-") and vim.fn.search([[\cabnf]], "nw") == 0 then
      return
    end
    vim.keymap.set("n", "gd", vim.lsp.buf.definition, { buffer = args.buf })
    vim.keymap.set("n", "grn", rename, { buffer = args.buf })
  end,
})
for _, it in ipairs({ "abnf", "markdown", "xml" }) do
  vim.cmd("highlight default link @lsp.typemod.type.definition." .. it .. " Function")
  vim.cmd("highlight default link @lsp.typemod.type.defaultLibrary." .. it .. " Identifier")
end
