-- Shows what a build log says of the open files, and moves it with the text. For Neovim 0.7 and later: put it into
-- init.lua, and set `log` and `tool` for your build.
local log, tool = "build.log", "gcc"

vim.api.nvim_create_autocmd("FileType", {
  pattern = { "c", "cpp", "rust", "python", "javascript", "typescript", "go" },
  callback = function(event)
    local root = vim.fn.getcwd()
    if vim.fn.filereadable(root .. "/" .. log) == 0 then return end
    vim.g.girzohal_client = vim.g.girzohal_client
      or vim.lsp.start_client({ name = "girzohal", cmd = { "girzohal_lsp", "--tool", tool, log }, root_dir = root })
    vim.lsp.buf_attach_client(event.buf, vim.g.girzohal_client)
  end,
})
