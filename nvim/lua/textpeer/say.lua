-- What is said to a person, by Neovim's messages.
local function at(level)
  return function(text)
    vim.notify('textpeer: ' .. text, level)
  end
end

return { note = at(vim.log.levels.INFO), warning = at(vim.log.levels.WARN), error = at(vim.log.levels.ERROR) }
