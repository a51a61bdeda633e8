-- Tries girzohal_lsp with Neovim's own client. Run by tools/tries/try_lsp.py, which sets the environment:
-- LSP_PROGRAM, LSP_WORDS (one a line), LSP_FILE, LSP_UNITS (what places count in; empty: what the client takes by
-- itself). Prints a line for each look: a name, a bar, and JSON of what is shown.
local words = { os.getenv("LSP_PROGRAM") }
for word in os.getenv("LSP_WORDS"):gmatch("[^\n]+") do
  table.insert(words, word)
end

-- how many lists have come, the version that the last one is of, and what was said
local seen, version, said = 0, nil, {}
local shown = vim.lsp.handlers["textDocument/publishDiagnostics"]
vim.lsp.handlers["textDocument/publishDiagnostics"] = function(fault, result, ...)
  seen = seen + 1
  version = result.version
  return shown(fault, result, ...)
end
vim.lsp.handlers["window/logMessage"] = function(_, result)
  table.insert(said, result.message)
end

vim.cmd("edit " .. vim.fn.fnameescape(os.getenv("LSP_FILE")))
local buffer = vim.api.nvim_get_current_buf()
local capabilities = vim.lsp.protocol.make_client_capabilities()
if os.getenv("LSP_UNITS") ~= "" then
  capabilities.offsetEncoding = { "utf-7", os.getenv("LSP_UNITS") }
end
local client = vim.lsp.start_client({
  cmd = words,
  name = "girzohal",
  root_dir = vim.fn.getcwd(),
  capabilities = capabilities,
  on_init = function(it, result)
    it.offset_encoding = result.offsetEncoding or it.offset_encoding
  end,
})

-- what is shown once `done` holds: where each finding starts and ends (line and byte from 0), and its message
local function look(name, done)
  local came = vim.wait(5000, done, 10)
  local out = {}
  for _, it in ipairs(vim.diagnostic.get(buffer)) do
    table.insert(out, { it.lnum, it.col, it.end_lnum, it.end_col, it.message, it.severity })
  end
  local text = vim.api.nvim_buf_get_lines(buffer, 0, -1, false)
  local units = vim.lsp.get_client_by_id(client).offset_encoding
  local all = { came = came, shown = out, text = text, said = said, units = units }
  print(name .. " | " .. vim.fn.json_encode(all) .. "\n")
  return out
end

-- one step, and a look when the list for the text behind it has come
local function step(name, change)
  local before = seen
  vim.cmd("let &undolevels = &undolevels")
  change()
  look(name, function()
    return seen > before and version == vim.lsp.util.buf_versions[buffer]
  end)
end

local function edit(name, from, to, lines)
  step(name, function()
    vim.api.nvim_buf_set_text(buffer, from[1], from[2], to[1], to[2], lines)
  end)
end

local function command(name, it)
  step(name, function()
    vim.cmd(it)
  end)
end

vim.lsp.buf_attach_client(buffer, client)
local opened = look("opened", function()
  return seen > 0
end)
-- the first finding with a text of one row that doesn't begin where the row does: what is typed in an empty one
-- doesn't become part of it
local first
for _, it in ipairs(opened) do
  first = first or it[2] > 0 and it[1] == it[3] and it[2] < it[4] and it
end
if not first then
  vim.lsp.stop_client(client, true)
  vim.cmd("qa!")
  return
end
local row, column, last = first[1] + 1, first[2] + 6, first[4] + 6
command("a line above", "normal! ggO/* é 💣 */\027")
edit("past ASCII in front", { row, 0 }, { row, 0 }, { "é💣" })
command("typed above", "normal! ggotyped é💣\027")
command("joined and parted", "normal! gg2Jr\r")
command("line above deleted", "normal! ggjdd")
edit("in the mark", { row, column }, { row, last }, { "X💣" })
command("below", "normal! " .. row + 1 .. "Go// below\027")
command("undone", "silent undo")
command("mark undone", "silent undo")
command("mark redone", "silent redo")
edit("emptied", { 0, 0 }, { vim.api.nvim_buf_line_count(buffer) - 1, 0 }, { "" })
step("all emptied", function()
  vim.api.nvim_buf_set_lines(buffer, 0, -1, false, {})
end)
command("all undone", "silent undo 0")
local before = seen
vim.cmd("silent write")
look("saved", function()
  return seen > before
end)
vim.lsp.stop_client(client)
vim.wait(1000, function()
  return vim.lsp.client_is_stopped(client)
end, 10)
vim.cmd("qa!")
