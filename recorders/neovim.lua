-- Records what Neovim's built-in client and its language servers send each other, for lspcheck.
-- Start Neovim with: nvim --cmd 'luafile neovim.lua' FILE (or use dofile at the top of init.lua).
-- Each server process gets a log of its own, SERVER-TIME-PID.log, and when it has ended, a file
-- SERVER-TIME-PID.exit that says how. They go to the folder $LSPCHECK_LOGS, which is created if it
-- does not exist (default: the folder that Neovim was started in). Only their owner can read them.
-- With LSPCHECK_ALARM=1, and lspcheck on the PATH, a message appears as soon as a rule is broken or
-- the texts drift apart.

local uv = vim.uv or vim.loop
local most = 1048576 -- the most bytes of one record
local owner_file, owner_folder = tonumber("600", 8), tonumber("700", 8)
local started = nil
local log_of_pipe = setmetatable({}, { __mode = "k" })
local log_of_rpc = setmetatable({}, { __mode = "k" })

-- An absolute path, so that the logs stay in one folder after `:cd`.
local folder = os.getenv("LSPCHECK_LOGS")
folder = vim.fn.fnamemodify(folder ~= "" and folder or ".", ":p")
-- If another Neovim creates the same folders at this moment, one of the two fails.
for _ = 1, 9 do
  if pcall(vim.fn.mkdir, folder, "p", owner_folder) then
    break
  end
end

-- Why no log is written there: whoever else could replace files there could have Neovim write to
-- any file of its user. In a sticky folder, such as /tmp, nobody else can.
local sticky, by_others = tonumber("1000", 8), tonumber("2", 8)
local function why_refused()
  if not uv.getuid then
    return nil
  end
  local found, problem = uv.fs_lstat(#folder > 1 and folder:gsub("/+$", "") or folder)
  if not found then
    return problem
  elseif found.type == "link" then
    return folder .. ": it is a symbolic link"
  elseif found.uid ~= 0 and found.uid ~= uv.getuid() then
    return folder .. ": it belongs to another user"
  elseif bit.band(found.mode, sticky + by_others) == by_others then
    return folder .. ": others may write to it"
  end
end

local pipe = getmetatable(uv.new_pipe(false)).__index
local write, read_start = pipe.write, pipe.read_start
local start, spawn = vim.lsp.rpc.start, uv.spawn

-- Shows one line. A longer one, or a second one on the same screen, would wait for a key.
local function say(message)
  vim.cmd("redraw")
  vim.notify(vim.fn.strcharpart(message, 0, vim.v.echospace), vim.log.levels.WARN)
end

-- Adds lines to the buffer of a log's violations, which has the log's name.
local function keep(log, lines)
  if not (log.buffer and vim.api.nvim_buf_is_valid(log.buffer)) then
    log.buffer = vim.api.nvim_create_buf(true, true)
    vim.api.nvim_buf_set_name(log.buffer, "lspcheck: " .. log.name)
    vim.api.nvim_buf_set_lines(log.buffer, 0, -1, true, { "lspcheck explain --all " .. log.path })
  end
  vim.api.nvim_buf_set_lines(log.buffer, -1, -1, true, lines)
end

-- The notes that are shown like violations: they say that a server may have dropped a document.
local told_notes = { ["past-end"] = true, ["range-length"] = true, refused = true }

local function is_told_at_once(line)
  local note = line:match("^note (%S+) ")
  return line:match("^no %d") or line:match("^bad log ") or (note and told_notes[note])
end

-- Starts `lspcheck explain --all`, which reads the log while it is written and explains each
-- violation at once. `hear` gets each line.
local function start_check(log, given, hear)
  local check = { input = uv.new_pipe(false) }
  local output, rest = uv.new_pipe(false), ""
  local args = vim.list_extend({ "explain", "--all" }, given)
  local options = { args = args, stdio = { check.input, output } }
  if not spawn("lspcheck", options, function() end) then
    return
  end
  log.checks[check] = true
  read_start(output, function(_, data)
    if not data then
      output:close()
      return
    end
    local lines = vim.split(rest .. data, "\n", { plain = true })
    rest = table.remove(lines)
    vim.schedule(function()
      for _, line in ipairs(lines) do
        hear(line, check)
      end
    end)
  end)
end

local function end_check(log, check)
  if log.checks[check] then
    log.checks[check] = nil
    check.input:close()
  end
end

-- A file whose line ends are converted on the way differs from its first snapshot on. So one check
-- ignores line ends, and another is there only to say so once. Before the first violation, or the
-- first of those notes, nothing is kept.
local function start_alarm(log)
  local is_told, said, block, is_of_ends = false, false, {}, false
  start_check(log, { "--ignore-line-ends", "--notes" }, function(line)
    local is_shown = is_told_at_once(line)
    is_told = is_told or is_shown
    if is_told then
      keep(log, { line })
    end
    if is_shown then
      say(("lspcheck: %s (:buffer %d)"):format(line, log.buffer))
    end
  end)
  start_check(log, {}, function(line, check)
    if line:match("^no %d") then
      block, is_of_ends = {}, false
    end
    table.insert(block, line)
    is_of_ends = is_of_ends or line:match("^ends ") ~= nil
    if is_of_ends and line:match("^so ") and not said then
      said = true
      keep(log, block)
      say(("lspcheck: %s, line ends alone (:buffer %d)"):format(block[1], log.buffer))
      end_check(log, check)
    end
  end)
end

local function append(log, bytes)
  if not log.is_deleted and uv.fs_fstat(log.file).nlink == 0 then
    log.is_deleted = true
    vim.schedule(function()
      say("lspcheck: nothing more is recorded: the log was deleted: " .. log.path)
    end)
  end
  uv.fs_write(log.file, bytes, -1)
  for check in pairs(log.checks) do
    write(check.input, bytes)
  end
end

-- Creates a file that did not exist, with a number in its name if there is one of that name.
local function create(name)
  local path, file, problem, code
  local number = 1
  local why = why_refused()
  if why then
    return nil, nil, why
  end
  repeat
    path = folder .. "/" .. name .. (number > 1 and "-" .. number or "") .. ".log"
    file, problem, code = uv.fs_open(path, "wx", owner_file)
    number = number + 1
  until code ~= "EEXIST"
  return path, file, problem
end

-- What may come before the server in a command: `env` and its options, a shell, Python that runs a
-- module, the commands and settings before that of the server.
local before_server = "\\C\\v^("
  .. table.concat({
    [[\s+]],
    [[(\S*/)?env(\s+-([uC]\s+\S+|\S+))*\s]],
    [[(\S*/)?(ba|da|k|z)?sh\s+-\w*c\s]],
    [[(\S*/)?python[0-9.]*\s+(-[WX]\s+\S+\s+|-\w+\s+)*-m\s]],
    [[(cd|export|source|\.|set|umask)\s[^;&|\n]*[;&|\n]+]],
    [[exec\s|\w+\=\S*\s]],
  }, "|")
  .. ")+"

-- The name of the server that a command starts.
local function server_name(words)
  local command = table.concat(words, " "):gsub("[\"']", "")
  local server = vim.fn.substitute(command, before_server, "", "")
  local name = server == command and words[1] or server:match("^[^%s;&|]*")
  return vim.fn.fnamemodify(name ~= "" and name or words[1], ":t")
end

local function new_log(words, pid)
  local name = server_name(words):gsub("[^%w._-]", "_")
  local path, file, problem = create(("%s-%s-%d"):format(name, os.date("%Y%m%dT%H%M%S"), pid))
  if not file then
    say("lspcheck: not recorded: " .. problem)
    return nil
  end
  local log = { path = path, name = vim.fn.fnamemodify(path, ":t"), file = file, checks = {} }
  if (os.getenv("LSPCHECK_ALARM") or "") ~= "" and vim.fn.executable("lspcheck") == 1 then
    start_alarm(log)
  end
  append(log, "lsp-session 2\n")
  return log
end

-- Writes how the server ended to a file next to its log.
local function note_exit(log, status, signal)
  local path = log.path:gsub("%.log$", ".exit")
  local file = not log.is_deleted and uv.fs_open(path, "wx", owner_file)
  if file then
    local ended = signal ~= 0 and ("signal %d"):format(signal) or ("status %d"):format(status)
    uv.fs_write(file, ("%s\ntime %s\n"):format(ended, os.date("%Y-%m-%dT%H:%M:%S%z")), -1)
    uv.fs_close(file)
  end
  for check in pairs(log.checks) do
    end_check(log, check)
  end
end

-- Records what the editor wrote ("E") or read ("S").
local function record(log, side, bytes)
  for at = 1, #bytes, most do
    local piece = bytes:sub(at, at + most - 1)
    append(log, ("%s %d\n%s\n"):format(side, #piece, piece))
  end
end

-- A language server's pipes are those of the process that `vim.lsp.rpc.start` spawns.
vim.lsp.rpc.start = function(...)
  started = {}
  local rpc = start(...)
  if rpc and started.log then
    log_of_rpc[rpc] = started.log
  end
  started = nil
  return rpc
end
uv.spawn = function(command, options, on_exit)
  if not started or started.log then
    return spawn(command, options, on_exit)
  end
  local log
  local handle, pid, code = spawn(command, options, function(status, signal)
    if log then
      note_exit(log, status, signal)
    end
    on_exit(status, signal)
  end)
  if handle then
    log = new_log({ command, unpack(options.args or {}) }, pid)
    started.log = log
    log_of_pipe[options.stdio[1]] = log
    log_of_pipe[options.stdio[2]] = log
  end
  return handle, pid, code
end

pipe.write = function(self, data, ...)
  local log = log_of_pipe[self]
  if log then
    record(log, "E", type(data) == "table" and table.concat(data) or data)
  end
  return write(self, data, ...)
end
pipe.read_start = function(self, on_read)
  local log = log_of_pipe[self]
  if not log then
    return read_start(self, on_read)
  end
  return read_start(self, function(err, data)
    if data then
      record(log, "S", data)
    end
    on_read(err, data)
  end)
end

local function clients_of(buffer)
  if vim.lsp.get_clients then
    return vim.lsp.get_clients({ bufnr = buffer })
  end
  return vim.lsp.buf_get_clients(buffer)
end

-- Records the buffer as it is, at the version that the client keeps for it: that of its last change
-- or of its next one.
local line_ends = { unix = "\n", dos = "\r\n", mac = "\r" }
local function snapshot(buffer)
  local versions = vim.lsp.util.buf_versions
  local version = versions and versions[buffer] or vim.api.nvim_buf_get_changedtick(buffer)
  local line_end, uri = line_ends[vim.bo[buffer].fileformat], vim.uri_from_bufnr(buffer)
  local text = table.concat(vim.api.nvim_buf_get_lines(buffer, 0, -1, true), line_end)
  if vim.bo[buffer].endofline then
    text = text .. line_end
  end
  for _, client in pairs(clients_of(buffer)) do
    local log = log_of_rpc[client.rpc]
    if log then
      append(log, ("T %d %d %d\n%s\n%s\n"):format(version, #uri, #text, uri, text))
    end
  end
end
vim.api.nvim_create_autocmd({ "BufWritePost", "InsertLeave", "TextChanged" }, {
  callback = function(event)
    snapshot(event.buf)
  end,
})
