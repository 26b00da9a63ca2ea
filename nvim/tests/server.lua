-- A `textpeer serve` ($TEXTPEER_PROGRAM) of a journal.
local checks = require('checks')

local Server = {}
Server.__index = Server

-- Starts one at the port, 0 for any; it listens then.
function Server.start(journal, port)
  local self = setmetatable({ journal = journal }, Server)
  local job = { vim.env.TEXTPEER_PROGRAM, 'serve', journal, '127.0.0.1:' .. port, '--workers', '4' }
  self.job = vim.fn.jobstart(job, {
    on_stdout = function(_, lines)
      for _, line in ipairs(lines) do
        self.port = self.port or line:match('^listening (%d+)')
      end
    end,
  })
  checks.wait('a server that listens', function()
    return self.port
  end)
  return self
end

function Server:kill()
  vim.loop.kill(vim.fn.jobpid(self.job), 'sigkill')
  vim.fn.jobwait({ self.job })
end

return Server
