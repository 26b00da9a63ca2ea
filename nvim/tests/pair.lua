-- Two Neovims and a server between them: both type at once, the server is killed and started anew, both type meanwhile, and
-- all end with one text and equal heads. It needs the engine's library and the program `textpeer` ($TEXTPEER_PROGRAM), and
-- exits 1 at a difference.
local uv = vim.loop
local here = debug.getinfo(1, 'S').source:sub(2):match('(.*)/')
package.path = here .. '/?.lua;' .. package.path
local Editor = require('editor')
local Server = require('server')
local checks = require('checks')

local check, run, wait = checks.check, checks.run, checks.wait
local program = vim.env.TEXTPEER_PROGRAM
local folder = vim.fn.tempname()
vim.fn.mkdir(folder, 'p')
local seed = tonumber(vim.env.TEXTPEER_SEED or '1')
math.randomseed(seed)

-- An editor with the journal of that name.
local function editor_of(name)
  local editor = Editor.start()
  editor.name = name
  editor:command('TextpeerOpen ' .. folder .. '/' .. name .. '.journal')
  return editor
end

local ann, ben
local server

-- Waits until all three have equal heads, and compares their texts.
local function meet(what)
  -- Keys are taken when Neovim comes to them.
  vim.wait(300)
  local same = wait(what .. ': equal heads', function()
    local _, a = ann:engine()
    local _, b = ben:engine()
    return a == b and a == table.concat(run('heads', folder .. '/server.journal'), '\n')
  end, 40)
  local text = ann:engine()
  check(text == ben:engine(), what .. ': the engines\' texts')
  check(text == ann:text() and text == ben:text(), what .. ': the buffers\' texts')
  for _, name in ipairs({ 'server', 'ann', 'ben' }) do
    check(text == table.concat(run('text', folder .. '/' .. name .. '.journal'), '\n'), what .. ': the text of ' .. name)
  end
  for _, editor in ipairs({ ann, ben }) do
    local mended, stopped = unpack(editor:lua([[
      local document = require('textpeer').of().document
      return { document.mended, document.stopped or false }
    ]]))
    check(mended == 0 and not stopped, what .. ': ' .. editor.name .. ' had to mend or stopped')
  end
  if same then
    local entered = ann:lua("return require('textpeer').of().document.entered")
    io.stdout:write(('%s: one text of %d bytes, %d changes, of which %d came to ann\n'):format(what, #text,
      #run('log', folder .. '/server.journal'), entered))
  end
  return text
end

-- Random commands of both, for a number of turns.
local KEYS = {
  'x', 'dd', 'p', 'P', 'yyp', 'J', 'u', '<C-r>', '~', '>>', 'j', 'k', 'gg', 'G', 'w', 'b', 'dw', 'ddp', 'ofresh line<Esc>', 'Otop<Esc>', 'iä€😀<Esc>',
  'A end<Esc>', 'ihello <Esc>', 'o<CR><CR><Esc>', ':s/e/EE/ge<CR>', ':%s/a/ä/ge<CR>', 'vjd', '<C-v>jlIq<Esc>', 'ciwword<Esc>', 'guu', '.',
}
local function both_type(turns)
  for _ = 1, turns do
    for _, editor in ipairs({ ann, ben }) do
      editor:type(KEYS[math.random(#KEYS)])
    end
    vim.wait(math.random(0, 60))
  end
  for _, editor in ipairs({ ann, ben }) do
    editor:type('<Esc><Esc>')
  end
end

-- A server that isn't one of this document: says nothing, hangs up, says what is no frame, or has another document.
local function strange_server(behaviour)
  if behaviour == 'other' then
    local path, port = folder .. '/other.journal', nil
    run('new', path)
    local job = vim.fn.jobstart({ program, 'serve', path, '127.0.0.1:0' }, {
      on_stdout = function(_, lines)
        port = port or table.concat(lines):match('^listening (%d+)')
      end,
    })
    wait('another server', function()
      return port
    end)
    return {
      port = port,
      close = function()
        vim.fn.jobstop(job)
      end,
    }
  end
  local socket, clients = uv.new_tcp(), {}
  socket:bind('127.0.0.1', 0)
  socket:listen(8, function()
    local client = uv.new_tcp()
    socket:accept(client)
    clients[#clients + 1] = client
    if behaviour == 'hangs up' then
      client:close()
    elseif behaviour == 'garbage' then
      client:write(('\255'):rep(100))
    end
  end)
  return {
    port = socket:getsockname().port,
    close = function()
      socket:close()
      for _, client in ipairs(clients) do
        if not client:is_closing() then
          client:close()
        end
      end
    end,
  }
end

local function main()
  local first = folder .. '/server.journal'
  run('new', first)
  run('edit', first, '--at', '0', '--del', '0', '--text', 'Shopping\n\nbread\nmilk\n')
  for _, name in ipairs({ 'ann', 'ben' }) do
    uv.fs_copyfile(first, folder .. '/' .. name .. '.journal')
  end
  server = Server.start(first, 0)
  ann, ben = editor_of('ann'), editor_of('ben')
  check(ann:text() == 'Shopping\n\nbread\nmilk\n', 'what is opened')
  for _, editor in ipairs({ ann, ben }) do
    editor:command('TextpeerConnect 127.0.0.1:' .. server.port)
  end

  -- Both in one line, at once, each in insert mode all the time: what each types stays together.
  ann:type('2GA')
  ben:type('2GA')
  for i = 1, 40 do
    ann:type(('a%02d'):format(i))
    ben:type(('b%02d'):format(i))
    -- What the other typed comes amid.
    vim.wait(i % 10 == 0 and 2000 or 50)
  end
  check(ann:lua("return require('textpeer').of().document.entered") > 0, 'something comes while ann types')
  ann:type('<Esc>')
  ben:type('<Esc>')
  local text = meet('one line')
  for _, letter in ipairs({ 'a', 'b' }) do
    local parts = {}
    for i = 1, 40 do
      parts[i] = ('%s%02d'):format(letter, i)
    end
    check(text:find(table.concat(parts), 1, true), 'what one types stays together: ' .. text)
  end

  -- A cursor in each of two windows stays where it was in the text while the other types above it.
  ben:type('gg')
  ann:type(':split<CR>/milk<CR>l:wincmd w<CR>/bread<CR>ll')
  vim.wait(200)
  ben:type('Oabove<CR>and above<Esc>')
  meet('two windows')
  local places = ann:lua([[
    local places = {}
    for _, window in ipairs(vim.fn.win_findbuf(vim.fn.bufnr())) do
      local place = vim.api.nvim_win_get_cursor(window)
      table.insert(places, vim.fn.getline(place[1]) .. ' ' .. place[2])
    end
    table.sort(places)
    return places
  ]])
  check(vim.deep_equal(places, { 'bread 2', 'milk 1' }), 'cursors: ' .. vim.inspect(places))
  ann:command('only')

  -- What is undone is one's own, though the other typed meanwhile, also beside it.
  ann:type('Goan idea<Esc>')
  meet('an idea')
  ben:type('GA of Ann<Esc>')
  text = meet('an idea and more')
  check(text:find('\nan idea of Ann$'), 'what both typed: ' .. text)
  ann:type('u')
  text = meet('undone')
  check(text:find(' of Ann$') and not text:find('an idea', 1, true), 'an undo: ' .. text)
  ann:type('<C-r>')
  text = meet('done again')
  check(text:find('\nan idea of Ann$'), 'a redo: ' .. text)

  both_type(60)
  meet('both at once')

  -- The server is killed; both go on; it comes again.
  server:kill()
  both_type(30)
  wait('ann and ben see that there is no server', function()
    return ann:state() == 'offline' and ben:state() == 'offline'
  end)
  ann:type('GoAnn, offline<Esc>')
  ben:type('ggOBen, offline<Esc>')
  vim.wait(300)
  server = Server.start(first, server.port)
  text = meet('offline and on again')
  check(text:find('Ann, offline', 1, true) and text:find('Ben, offline', 1, true), 'what was typed offline')
  check(ann:state() == 'online' and ben:state() == 'online', 'both are online')

  -- Killed while both type.
  both_type(10)
  server:kill()
  both_type(10)
  server = Server.start(first, server.port)
  both_type(10)
  meet('killed amid')

  -- One leaves, the other types on, and it comes back; what it typed last is in its journal.
  ann:type('Golast words<Esc>')
  vim.wait(50)
  ann:quit()
  ben:type('ggOmeanwhile<Esc>')
  ann = editor_of('ann')
  check(ann:text():find('last words', 1, true), 'what was typed before the end')
  ann:command('TextpeerConnect 127.0.0.1:' .. server.port)
  text = meet('left and came back')
  check(text:find('last words', 1, true) and text:find('meanwhile', 1, true), 'what was typed when one was away')

  -- Nothing is exchanged after a disconnect; `:edit` reads the text again and keeps the link.
  ben:command('TextpeerDisconnect')
  ann:command('edit')
  ann:type('ggOafter edit<Esc>')
  vim.wait(2500)
  check(not ben:text():find('after edit', 1, true), 'a disconnect')
  ben:command('TextpeerConnect 127.0.0.1:' .. server.port)
  check(meet('connected again'):find('after edit', 1, true), 'an edit after :edit')

  -- A buffer that was wiped out is opened by its name.
  local name = ann:request('nvim_buf_get_name', 0)
  ann:command('bwipeout')
  ann:command('edit ' .. name)
  ann:command('TextpeerConnect 127.0.0.1:' .. server.port)
  ann:type('ggOby name<Esc>')
  check(meet('by its name'):find('by name', 1, true), 'an edit of a buffer that was opened by its name')

  -- Servers that are none.
  for _, one in ipairs({ { 'silent', 'offline' }, { 'hangs up', 'offline' }, { 'garbage', 'refused' }, { 'other', 'refused' } }) do
    local behaviour, state = unpack(one)
    local socket = strange_server(behaviour)
    ann:command('TextpeerConnect 127.0.0.1:' .. socket.port)
    wait('ann is ' .. state .. ' with a server that is ' .. behaviour, function()
      return ann:state() == state
    end)
    ann:type('Go' .. behaviour .. '<Esc>')
    socket.close()
  end
  ann:command('TextpeerConnect 127.0.0.1:' .. server.port)
  text = meet('after strange servers')
  check(text:find('silent\n%s*hangs up\n%s*garbage\n%s*other$'), 'what was typed meanwhile: ' .. text)

  ann:quit()
  ben:quit()
  server:kill()
end

local ok, problem = pcall(main)
check(ok, tostring(problem))
if checks.failed > 0 then
  for _, editor in ipairs({ ann, ben }) do
    pcall(function()
      io.stdout:write(editor.name .. ': ' .. editor:told() .. '\n')
    end)
  end
end
if server then
  pcall(server.kill, server)
end
vim.fn.delete(folder, 'rf')
checks.finish()
