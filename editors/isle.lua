-- ISLE in Neovim, from 0.7 on: require it or load it by dofile, and call setup.
--   setup { cmd = { '/path/to/isle', 'lsp' }, files = { 'a.isle', 'b.isle' } }
-- cmd: by default the program isle beside the folder of this file. files: the rule files of a folder in their order, where it has no
-- file isle.files.
local M = {}

-- The folder above that of this file, which has the program in a repository and in an archive.
local top = vim.fn.fnamemodify(debug.getinfo(1, 'S').source:sub(2), ':p:h:h')

-- The folder that has a file isle.files or .git, at or above a file; else that of the file.
local function root_of(path)
  local folder = vim.fn.fnamemodify(path, ':p:h')
  local at = folder
  while true do
    for _, mark in ipairs({ 'isle.files', '.git' }) do
      if vim.loop.fs_stat(at .. '/' .. mark) then
        return at
      end
    end
    local above = vim.fn.fnamemodify(at, ':h')
    if above == at then
      return folder
    end
    at = above
  end
end

-- The clients by their folders.
local clients = {}

-- Opens a document anew of which the server has lost the text.
local function open_anew(_, document, context)
  local buffer = vim.uri_to_bufnr(document.uri)
  if vim.api.nvim_buf_is_loaded(buffer) then
    vim.lsp.buf_detach_client(buffer, context.client_id)
    vim.lsp.buf_attach_client(buffer, context.client_id)
  end
end

-- Has the server of the file's folder look after a buffer.
local function attach(buffer, options)
  local root = root_of(vim.api.nvim_buf_get_name(buffer))
  local config = {
    name = 'isle',
    cmd = options.cmd or { top .. '/isle', 'lsp' },
    root_dir = root,
    handlers = { ['isle/outOfStep'] = open_anew },
    init_options = options.files and { files = options.files } or nil,
    on_attach = options.on_attach,
    on_exit = function()
      clients[root] = nil
    end,
  }
  if vim.lsp.start then
    vim.lsp.start(config, { bufnr = buffer })
    return
  end
  clients[root] = clients[root] or vim.lsp.start_client(config)
  if clients[root] then
    vim.lsp.buf_attach_client(buffer, clients[root])
  end
end

function M.setup(options)
  options = options or {}
  local group = vim.api.nvim_create_augroup('isle', { clear = true })
  vim.api.nvim_create_autocmd({ 'BufRead', 'BufNewFile' }, {
    group = group,
    pattern = '*.isle',
    callback = function()
      vim.bo.filetype = 'isle'
      vim.bo.commentstring = '; %s'
    end,
  })
  vim.api.nvim_create_autocmd('FileType', {
    group = group,
    pattern = 'isle',
    callback = function(event)
      attach(event.buf, options)
    end,
  })
end

return M
