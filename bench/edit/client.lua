-- redlsp behind a real client: `REDLSP=PROGRAM nvim --headless -u NONE -c 'luafile bench/edit/client.lua'`, at the top of the repository.
-- A mistake of examples/broken is told and mended, and the rest is asked for once; each line says what came, and the status is 1 where
-- something else did.
local wrong = 0

local function hold(name, got, wanted)
  local good = vim.deep_equal(got, wanted)
  if not good then
    wrong = wrong + 1
  end
  print((good and 'good  ' or 'WRONG ') .. name .. ': ' .. vim.inspect(got) .. '\n')
end

local program = os.getenv('REDLSP') or (vim.fn.getcwd() .. '/crates/redlsp/out/redlsp')
local folder = vim.fn.tempname()
vim.fn.system({ 'cp', '-r', 'examples/broken/service', folder })
vim.cmd('edit ' .. folder .. '/menu')
vim.bo.filetype = 'redplay'
local client = vim.lsp.start_client({ name = 'redlsp', cmd = { program }, root_dir = folder })
vim.lsp.buf_attach_client(0, client)

local function found()
  return vim.tbl_map(function(one)
    return { one.lnum, one.col, one.code or one.user_data.lsp.code }
  end, vim.diagnostic.get(0))
end

-- what a request about a place is answered
local function ask(method, line, character, more)
  local params = vim.tbl_extend('force', {
    textDocument = { uri = vim.uri_from_bufnr(0) },
    position = { line = line, character = character },
  }, more or {})
  local answers = vim.lsp.buf_request_sync(0, method, params, 5000) or {}
  local answer = answers[client] or {}
  return answer.result
end

vim.wait(5000, function()
  return #vim.diagnostic.get(0) > 0
end)
hold('a mistake is underlined', found(), { { 17, 30, 'V1' } })

local hover = ask('textDocument/hover', 17, 18) or { contents = {} }
hold('hover', hover.contents.value, '**SetPosition**: moves its box there\n\n    :SetPosition (target number number)')

vim.api.nvim_buf_set_text(0, 17, 30, 17, 32, { '10' })
vim.wait(5000, function()
  return #vim.diagnostic.get(0) == 0
end)
hold('it goes where it is mended', found(), {})

local definition = ask('textDocument/definition', 17, 30) or { range = { start = {} } }
hold('definition', definition.range.start, { line = 7, character = 20 })

local offered = ask('textDocument/completion', 17, 32) or {}
local labels = vim.tbl_map(function(item)
  return item.label
end, offered)
hold('completion', labels, { '1', '2', '10' })

local edits = ask('textDocument/rename', 17, 30, { newName = '30' })
vim.lsp.util.apply_workspace_edit(edits, 'utf-16')
local lines = vim.api.nvim_buf_get_lines(0, 7, 8, false)
hold('rename', { lines[1]:sub(1, 32), vim.fn.search(':SetPosition (30 24 64)', 'nw') > 0 }, { '        {:Rectangle 30 :OrigBoxS', true })

vim.lsp.stop_client(client)
vim.cmd(wrong == 0 and 'qall!' or 'cquit 1')
