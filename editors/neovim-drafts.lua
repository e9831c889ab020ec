-- Neovim 0.7 or later, in drafts; a line in init.lua that reads this file is enough:
--   dofile(vim.fn.expand("~/.local/share/abnf_ls/editors/neovim-drafts.lua"))
-- Of draft-*.md (Markdown) and draft-*.xml (RFCXML) abnf_findings looks at the text as it is in Neovim, at each change. Faults of the
-- grammar are marked as you type. How a mark says what is wrong stands in neovim.lua. A draft without a grammar has no mark.
local program = "/path/to/abnf_ls/out/abnf_findings"
local space = vim.api.nvim_create_namespace("abnf_findings")
local severities = { error = vim.diagnostic.severity.ERROR, warning = vim.diagnostic.severity.WARN }

-- Columns count characters, and those of Neovim bytes. The mark is a name's, or one of a character.
local function diagnostic(lines, said)
  local line, column, kind, message, code = said:match("^%-:(%d+):(%d+): (%a+): (.*) %[([a-z-]+)%]$")
  local text = code and code ~= "no-grammar" and lines[tonumber(line)]
  local at = text and vim.fn.byteidxcomp(text, column - 1) or -1
  if at >= 0 then
    local last = math.max(at, vim.fn.matchend(text, [[[A-Za-z0-9-]\+\|.]], at))
    local place = { lnum = line - 1, col = at, end_col = last }
    return vim.tbl_extend("error", place, { severity = severities[kind], message = message, code = code, source = "abnf_findings" })
  end
end

local function look(buffer, format)
  local lines = vim.api.nvim_buf_get_lines(buffer, 0, -1, true)
  local found = {}
  for _, said in ipairs(vim.fn.systemlist({ program, "--format", format, "-" }, lines)) do
    found[#found + 1] = diagnostic(lines, said)
  end
  vim.diagnostic.set(space, buffer, found, { update_in_insert = true })
end

for pattern, format in pairs({ ["draft-*.md"] = "markdown", ["draft-*.xml"] = "xml" }) do
  vim.api.nvim_create_autocmd({ "BufRead", "BufNewFile", "TextChanged", "TextChangedI", "TextChangedP" }, {
    pattern = pattern,
    callback = function(args)
      look(args.buf, format)
    end,
  })
end
