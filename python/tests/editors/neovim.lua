-- Opens a case with a slip by editors/neovim, tells its mark and a hint, mends it, renames a node and writes it.
local uv, api = vim.loop, vim.api
vim.g.emtp_command = uv.os_getenv("TOP") .. "/emtp"
dofile(uv.os_getenv("TOP") .. "/editors/neovim/plugin/emtp.lua")

local function waits(what, holds)
  if not vim.wait(60000, holds, 20) then
    io.stderr:write("neovim waited in vain for " .. what .. "\n")
    vim.cmd("cquit")
  end
end

vim.cmd("edit " .. uv.os_getenv("CASE"))
waits("a mark", function() return #vim.diagnostic.get(0) > 0 end)
print(vim.diagnostic.get(0)[1].message)

local document = { uri = vim.uri_from_bufnr(0) }
local function asked(method, more)
  local params = vim.tbl_extend("force", { textDocument = document }, more)
  for _, answer in pairs(vim.lsp.buf_request_sync(0, "textDocument/" .. method, params, 60000) or {}) do
    return answer.result
  end
end

print(asked("hover", { position = { line = 3, character = 34 } }).contents.value)
local line = { start = { line = 3, character = 0 }, ["end"] = { line = 3, character = 9 } }
local fixes = asked("codeAction", { range = line, context = { diagnostics = {} } })
vim.lsp.util.apply_workspace_edit(fixes[1].edit, "utf-16")
waits("no mark", function() return #vim.diagnostic.get(0) == 0 end)
api.nvim_win_set_cursor(0, { 4, 8 })
vim.lsp.buf.rename("LOAD")
waits("another name", function() return api.nvim_buf_get_lines(0, 4, 5, false)[1]:match("LOAD") ~= nil end)
vim.cmd("write")
vim.lsp.stop_client(vim.lsp.get_active_clients())
vim.cmd("quitall!")
