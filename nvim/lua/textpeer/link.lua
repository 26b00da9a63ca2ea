-- The link of a document to a server: one session after another, each over a connection of its own.
--
-- A session ends once both sides have the same changes. So another begins after an edit, and every so often to fetch what
-- others did. Where there is no server it is tried again, more seldom each time; edits are kept meanwhile.
local Document = require('textpeer.document')
local say = require('textpeer.say')

local Link = {}
Link.__index = Link

-- In milliseconds: after an edit that is the last one for so long; while edits go on; where there were none.
local AFTER_EDIT = 300
local WHILE_EDITING = 1000
local FETCH = 1000
-- The longest time until the next attempt where there is no server.
local MOST_BACKOFF = 10000
-- How long a session may go without a byte of the other side, and how long one is kept waiting for a command to be done.
local PATIENCE = 5000
local KEEP_WAITING = 2000

-- The host and the port of an address, as 127.0.0.1:7000, [::1]:7000 or localhost:7000; nil where it is none.
function Link.parse(address)
  local host, port = address:match('^%[([%x:.]+)%]:(%d+)$')
  if not host then
    host, port = address:match('^([%d.]+):(%d+)$')
  end
  if not host then
    host, port = address:match('^(localhost):(%d+)$')
    host = host and '127.0.0.1'
  end
  port = tonumber(port)
  if not host or port < 1 or port > 65535 then
    return nil
  end
  return host, port
end

-- A link to the server at the address, which begins with a session at once.
function Link.new(document, address)
  local host, port = Link.parse(address)
  if not host then
    return nil
  end
  local self = setmetatable({
    document = document,
    address = address,
    host = host,
    port = port,
    state = 'connecting',
    sessions = 0,
    backoff = FETCH,
    timer = vim.loop.new_timer(),
  }, Link)
  self:plan(0)
  return self
end

-- The link is as the word says, which status lines show.
function Link:become(state)
  if self.state ~= state then
    self.state = state
    vim.cmd('redrawstatus!')
  end
end

-- The next session is after this many milliseconds.
function Link:plan(milliseconds)
  if self.closed then
    return
  end
  self.timer:start(milliseconds, 0, vim.schedule_wrap(function()
    self:start()
  end))
end

-- An edit was made.
function Link:edited()
  if self.closed then
    return
  end
  if self.session then
    self.again = true
    return
  end
  if self.state == 'offline' then
    return
  end
  vim.loop.update_time()
  self.first_edit = self.first_edit or vim.loop.now()
  self:plan(math.max(0, math.min(AFTER_EDIT, self.first_edit + WHILE_EDITING - vim.loop.now())))
end

-- Begins a session, unless one is going on or text may not be changed now.
function Link:start()
  if self.closed or self.session then
    return
  end
  if self.document:is_over() then
    return
  end
  if not Document.may_change() then
    return self:plan(AFTER_EDIT)
  end
  local session = { socket = vim.loop.new_tcp(), came = {}, patience = vim.loop.new_timer() }
  self.session = session
  self.first_edit = nil
  self.again = false
  -- Ends the session; libuv's own calls come where Neovim's may not be made.
  local ended = vim.schedule_wrap(function(problem)
    self:finish(session, problem)
  end)
  session.patience:start(PATIENCE, 0, function()
    ended('the server does not answer')
  end)
  local ok, problem = pcall(function()
    session.socket:connect(self.host, self.port, function(failure)
      if failure then
        return ended(failure)
      end
      session.socket:read_start(function(broken, bytes)
        if broken or not bytes then
          return ended(broken or 'the connection ended')
        end
        session.patience:stop()
        session.patience:start(PATIENCE, 0, function()
          ended('the server does not answer')
        end)
        session.came[#session.came + 1] = bytes
        vim.schedule(function()
          self:hear(session)
        end)
      end)
      vim.schedule(function()
        self:greet(session)
      end)
    end)
  end)
  if not ok then
    ended(tostring(problem))
  end
end

-- Sends the first frame.
function Link:greet(session)
  if session.over then
    return
  end
  local ok, first = pcall(self.document.begin, self.document)
  if not ok or not first then
    return self:finish(session, ok and self.document.stopped or tostring(first))
  end
  session.begun = true
  self:send(session, first)
end

function Link:send(session, bytes)
  if #bytes > 0 and not session.over then
    session.socket:write(bytes)
  end
end

-- Takes what came, once text may be changed. A server isn't kept waiting for long.
function Link:hear(session)
  if session.over or #session.came == 0 or not session.begun then
    return
  end
  if not Document.may_change() then
    session.held = session.held or vim.loop.now()
    if vim.loop.now() - session.held > KEEP_WAITING then
      return self:finish(session, nil, 'held')
    end
    return vim.defer_fn(function()
      self:hear(session)
    end, 50)
  end
  session.held = nil
  local bytes = table.concat(session.came)
  session.came = {}
  local answer, going, refusal = self.document:receive(bytes)
  if not answer then
    return self:finish(session, self.document.stopped)
  end
  self:send(session, answer)
  if refusal then
    self:finish(session, nil, refusal)
  elseif not going then
    if self.state == 'offline' then
      say.note('online again')
    end
    self:become('online')
    self.sessions = self.sessions + 1
    self.backoff = FETCH
    self.problem = nil
    self:finish(session)
  end
end

-- Ends the connection, once what was sent has gone out, and plans the next session. `problem` is why there is no server;
-- `refusal` is why a session broke off.
function Link:finish(session, problem, refusal)
  if session.over then
    return
  end
  session.over = true
  session.patience:stop()
  session.patience:close()
  if not self.document.stopped then
    self.document.engine:stop()
  end
  self:hang_up(session)
  if self.session == session then
    self.session = nil
  end
  if self.closed or self.document.stopped then
    return
  end
  if type(refusal) == 'table' then
    return self:refused(refusal)
  end
  if problem then
    if self.state ~= 'offline' then
      -- Short, so that Neovim needs no prompt for it.
      say.warning(('offline: no server at %s (%s)'):format(self.address, problem))
    end
    self:become('offline')
    self.problem = problem
    self:plan(self.backoff)
    self.backoff = math.min(self.backoff * 2, MOST_BACKOFF)
    return
  end
  self:plan(self.again and AFTER_EDIT or FETCH)
end

function Link:hang_up(session)
  local socket = session.socket
  if not socket:is_closing() then
    socket:read_stop()
    local ok, request = pcall(socket.shutdown, socket, function()
      if not socket:is_closing() then
        socket:close()
      end
    end)
    if not (ok and request) and not socket:is_closing() then
      socket:close()
    end
  end
end

-- A session broke off for a reason that another attempt won't change: the link is over.
function Link:refused(refusal)
  self.problem = refusal.name
  say.error(('the session with %s broke off: %s'):format(self.address, refusal.name))
  self:become('refused')
  self:close()
end

-- Ends the link.
function Link:close()
  if self.closed then
    return
  end
  self.closed = true
  self.timer:stop()
  self.timer:close()
  if self.session then
    self:finish(self.session)
  end
end

return Link
