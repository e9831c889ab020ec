-- Neovim 0.7 or later; a line in init.lua that reads this file is enough:
--   dofile(vim.fn.expand("~/.local/share/abnf_ls/editors/neovim.lua"))
-- gd goes from a name to its definition, grr lists its places, grn renames it, gO shows the outline, K what a rule generates at the
-- shortest, and gra inserts that as a comment. From 0.10 on names are coloured by what they are. Faults are marked when Insert mode ends;
-- vim.diagnostic.config({ update_in_insert = true }) has them marked as you type, in all files. From 0.11 on a sign and an underline are
-- all of the mark: Ctrl-W d shows what is wrong, and vim.diagnostic.config({ virtual_text = true }) has it behind each line, in all files.
-- :edit starts a server that has ended, and from 0.12 on :lsp restart abnf_ls starts one anew that runs.
-- The server runs in all files of Markdown and XML too, beside others, and says nothing where it finds no block of ABNF. There the keys are
-- for drafts: files named draft-*, and those that have the word abnf when they are opened.
vim.api.nvim_create_autocmd({ "BufRead", "BufNewFile" }, { pattern = "*.abnf", command = "setfiletype abnf" })
local started = {}
local function rename() -- it proposes the word under the cursor: the whole name
  local words = vim.bo.iskeyword
  vim.cmd("setlocal iskeyword+=-")
  vim.lsp.buf.rename()
  vim.bo.iskeyword = words
end
vim.api.nvim_create_autocmd("FileType", {
  pattern = { "abnf", "markdown", "xml" },
  callback = function(args)
    if vim.bo[args.buf].buftype ~= "" then -- a hover, which is no file
      return
    end
    local root = vim.fn.fnamemodify(args.file, ":p:h")
    local config = { name = "abnf_ls", cmd = { "/path/to/abnf_ls/out/abnf_ls" }, root_dir = root, init_options = { drafts = true } }
    if vim.lsp.start then
      vim.lsp.start(config)
    else -- Neovim 0.7: one server for each folder
      if not (started[root] and vim.lsp.get_client_by_id(started[root])) then
        started[root] = vim.lsp.start_client(config)
      end
      vim.lsp.buf_attach_client(args.buf, started[root])
    end
    if args.match == "abnf" then
      vim.bo[args.buf].commentstring = "; %s"
    elseif not vim.fn.fnamemodify(args.file, ":t"):find("^draft%-") and vim.fn.search([[\cabnf]], "nw") == 0 then
      return
    end
    if args.match == "abnf" or vim.fn.has("nvim-0.8") == 0 then -- (Neovim 0.7 looks for the word only behind `rename`)
      vim.cmd("setlocal iskeyword+=-")
    end
    vim.keymap.set("n", "gd", vim.lsp.buf.definition, { buffer = args.buf })
    vim.keymap.set("n", "grr", vim.lsp.buf.references, { buffer = args.buf })
    vim.keymap.set("n", "grn", rename, { buffer = args.buf })
    vim.keymap.set("n", "gra", vim.lsp.buf.code_action, { buffer = args.buf })
    vim.keymap.set("n", "gO", vim.lsp.buf.document_symbol, { buffer = args.buf })
    vim.keymap.set("n", "K", vim.lsp.buf.hover, { buffer = args.buf })
  end,
})
if vim.fn.has("nvim-0.9") == 1 then -- a name that is defined here, and one of a core rule
  for _, it in ipairs({ "abnf", "markdown", "xml" }) do
    vim.cmd("highlight default link @lsp.typemod.type.definition." .. it .. " Function")
    vim.cmd("highlight default link @lsp.typemod.type.defaultLibrary." .. it .. " Identifier")
  end
end
