-- Cases are served by `emtp lsp`: marks, hints, quick fixes, names, symbols.
vim.api.nvim_create_autocmd({ "BufRead", "BufNewFile" }, {
  pattern = "*.case",
  callback = function() vim.bo.filetype = "emtp" end,
})

local client -- of neovim before 0.8, which has no vim.lsp.start
vim.api.nvim_create_autocmd("FileType", {
  pattern = "emtp",
  callback = function(event)
    vim.bo.commentstring = "C %s"
    vim.bo.expandtab = true
    vim.bo.omnifunc = "v:lua.vim.lsp.omnifunc"
    local config = { name = "emtp", cmd = { vim.g.emtp_command or "emtp", "lsp" }, root_dir = vim.fn.getcwd() }
    if vim.lsp.start then
      vim.lsp.start(config)
    else
      client = client or vim.lsp.start_client(config)
      vim.lsp.buf_attach_client(event.buf, client)
    end
  end,
})
