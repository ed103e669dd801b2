-- What Neovim's own client makes of the server, as JSON in the file $OUT: editors/server/try runs this, and compares.
local told = {}

local function wait(what, is_so)
  if not vim.wait(60000, is_so, 20) then
    told.fault = 'it did not come to be so: ' .. what
    vim.fn.writefile({ vim.fn.json_encode(told) }, vim.env.OUT)
    vim.cmd('cquit')
  end
end

-- The cursor at a pattern: of a name its first letter.
local function go(pattern)
  vim.fn.cursor(1, 1)
  vim.fn.search(pattern, 'cW')
end

local function ask(method, more)
  local params = vim.tbl_extend('force', vim.lsp.util.make_position_params(), more or {})
  local answers = vim.lsp.buf_request_sync(0, method, params, 60000)
  for _, it in pairs(answers or {}) do
    return it.result
  end
end

local function faults()
  local found = {}
  for _, it in ipairs(vim.diagnostic.get(0)) do
    table.insert(found, { it.lnum + 1, it.col, it.end_col, it.severity, it.message })
  end
  return found
end

vim.opt.runtimepath:prepend(vim.env.FOLDER)
vim.g.railcitron_program = vim.env.PROGRAM
vim.cmd('filetype plugin on')
vim.cmd('edit ' .. vim.env.FILE)

wait('faults', function() return #vim.diagnostic.get(0) > 0 end)
told.faults = faults()

go('here.water')
vim.fn.search('water')
told.hover = ask('textDocument/hover').contents.value

vim.lsp.buf.definition()
wait('the entry', function() return vim.fn.getline('.'):find('"kind": "int"') end)
told.entry = { vim.fn.line('.'), vim.fn.col('.') }

go('say bed.water')
vim.fn.search('water')
local offered = ask('textDocument/completion')
told.offered = vim.tbl_map(function(it) return it.label end, offered)

-- A change of the buffer, which Neovim sends as a change of a range, mends the fault.
local line = vim.fn.search('tasks')
vim.fn.setline(line, vim.fn.substitute(vim.fn.getline(line), 'tasks', 'task', ''))
wait('no faults', function() return #vim.diagnostic.get(0) == 0 end)

go('here.water')
vim.fn.search('water')
vim.lsp.buf.rename('wet')
wait('the new name', function() return vim.fn.search('here.wet', 'n') > 0 end)
told.renamed = vim.fn.getline(1, '$')

go('with here')
vim.fn.search('here')
vim.lsp.buf.rename('level')
vim.wait(500)
told.kept = vim.fn.search('with level', 'n') == 0

-- A fault behind a clef, which Neovim counts as four bytes.
line = vim.fn.search('say "on", level')
vim.fn.setline(line, '      say "𝄞", lvl;')
wait('the fault behind a clef', function() return #vim.diagnostic.get(0) > 0 end)
told.clef = faults()

vim.fn.writefile({ vim.fn.json_encode(told) }, vim.env.OUT)
vim.cmd('qall!')
