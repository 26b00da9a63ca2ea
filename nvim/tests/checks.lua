-- What the tests share: differences are printed and counted, and the program `textpeer` ($TEXTPEER_PROGRAM) is run.
local M = { failed = 0 }

-- Tells what differs, unless it is right; whether it is.
function M.check(right, what)
  if not right then
    M.failed = M.failed + 1
    io.stdout:write('differs: ' .. what .. '\n')
  end
  return right
end

-- The lines that the program prints; it must do what it is asked.
function M.run(...)
  local out = vim.fn.systemlist({ vim.env.TEXTPEER_PROGRAM, ... })
  M.check(vim.v.shell_error == 0, table.concat({ ... }, ' ') .. ': ' .. table.concat(out, ' '))
  return out
end

-- Waits until it is so; false where that takes too long.
function M.wait(what, call, seconds)
  return M.check(vim.wait((seconds or 20) * 1000, call, 20), 'waited for nothing: ' .. what)
end

-- Ends Neovim, with 1 where something differed.
function M.finish()
  io.stdout:write(M.failed == 0 and 'ok\n' or M.failed .. ' differences\n')
  vim.cmd(M.failed == 0 and 'qa!' or 'cq 1')
end

return M
