-- Has Neovim start the language server: the one that g:railcitron_server names, or the one beside this folder, or
-- railcitron-server on the PATH. An empty name starts none. g:railcitron_program names the program bb for it.
local beside = vim.fn.fnamemodify(vim.fn.resolve(debug.getinfo(1, 'S').source:sub(2)), ':p:h:h:h')
local servers = { beside .. '/server/railcitron-server', 'railcitron-server' }
if vim.g.railcitron_server then
  servers = { vim.g.railcitron_server }
end
local server = vim.tbl_filter(function(it) return vim.fn.executable(it) == 1 end, servers)[1]
if not server then
  return
end

local config = {
  name = 'railcitron',
  cmd = { server },
  root_dir = vim.fn.getcwd(),
  init_options = { program = vim.g.railcitron_program },
}
if vim.lsp.start then
  vim.lsp.start(config)
else
  -- Before Neovim 0.8 a client is started by hand, once for all inputs.
  local known = vim.lsp.get_client_by_id(vim.g.railcitron_client or 0)
  if not known then
    vim.g.railcitron_client = vim.lsp.start_client(config)
  end
  vim.lsp.buf_attach_client(0, vim.g.railcitron_client)
end
