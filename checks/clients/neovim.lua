-- Opens the program $LUS_FILE in a Neovim without a screen, with the plugin of editors/vim, and mends it as its author would: by quick
-- fixes, then laid out. Says what the editor shows, a line each; status 1 where something isn't answered in 20 seconds.
local out = {}

local function say(...)
  out[#out + 1] = table.concat(vim.tbl_map(tostring, { ... }), " ")
end

local function wait_for(what, test)
  if not vim.wait(20000, test, 20) then
    error("no " .. what)
  end
end

local published = 0
local publish = vim.lsp.handlers["textDocument/publishDiagnostics"]
vim.lsp.handlers["textDocument/publishDiagnostics"] = function(...)
  publish(...)
  published = published + 1
end

local function diagnostics()
  local found = vim.diagnostic.get(0)
  table.sort(found, function(a, b) return a.lnum < b.lnum end)
  say("diagnostics", #found)
  for _, it in ipairs(found) do
    local lsp = it.user_data and it.user_data.lsp or {}
    say(" ", it.lnum + 1, it.col, it.end_col, lsp.code, (it.message:gsub("\n.*", "")))
  end
  return found
end

local function ask(method, params)
  local answers = vim.lsp.buf_request_sync(0, method, params, 20000)
  for _, answer in pairs(answers or {}) do
    if answer.error then
      error(method .. ": " .. answer.error.message)
    end
    return answer.result
  end
  error("no answer to " .. method)
end

-- Applies the first quick fix of a diagnostic, and waits for the diagnostics of the changed text.
local function mend(diagnostic)
  local at = { line = diagnostic.lnum, character = 0 }
  local params = {
    textDocument = vim.lsp.util.make_text_document_params(),
    range = { start = at, ["end"] = at },
    context = { diagnostics = {} },
  }
  local action = ask("textDocument/codeAction", params)[1]
  say("quick fix", action.title)
  local before = published
  vim.lsp.util.apply_workspace_edit(action.edit, "utf-16")
  wait_for("diagnostics", function() return published > before end)
end

local function lay_out()
  local before = vim.api.nvim_buf_get_changedtick(0)
  if vim.lsp.buf.format then
    vim.lsp.buf.format({ timeout_ms = 20000 })
  else
    vim.lsp.buf.formatting_sync(nil, 20000)
  end
  say("laid out", vim.api.nvim_buf_get_changedtick(0) > before)
end

local function symbols(found, indent)
  for _, it in ipairs(found) do
    say(indent .. it.name, it.detail or "")
    symbols(it.children or {}, indent .. "  ")
  end
end

local function at(line, text)
  local row = vim.api.nvim_buf_get_lines(0, line - 1, line, false)[1]
  local byte = row:find(text, 1, true)
  vim.api.nvim_win_set_cursor(0, { line, byte - 1 })
  return vim.lsp.util.make_position_params(0, "utf-16")
end

local function main()
  vim.cmd("edit " .. vim.fn.fnameescape(os.getenv("LUS_FILE")))
  wait_for("diagnostics", function() return published > 0 end)
  for _ = 1, 9 do
    local found = diagnostics()
    if #found == 0 then
      break
    end
    mend(found[1])
  end
  lay_out()
  say("symbols")
  symbols(ask("textDocument/documentSymbol", { textDocument = vim.lsp.util.make_text_document_params() }), "  ")
  local help = ask("textDocument/signatureHelp", at(8, "tick"))
  say("signature", help.signatures[1].label, help.activeParameter)
  local call = at(8, "counter")
  local found = ask("textDocument/definition", call)
  say("definition", found.range.start.line + 1, found.range.start.character)
  say("hover", (ask("textDocument/hover", call).contents.value:gsub("\n", " ")))
  call.context = { includeDeclaration = true }
  say("references", #ask("textDocument/references", call))
  local rename = at(3, "count")
  rename.newName = "steps"
  vim.lsp.util.apply_workspace_edit(ask("textDocument/rename", rename), "utf-16")
  for _, line in ipairs(vim.api.nvim_buf_get_lines(0, 0, -1, false)) do
    say("|" .. line)
  end
  for _, client in ipairs(vim.lsp.get_active_clients()) do
    client.stop()
    wait_for("end of the server", function() return client.is_stopped() end)
  end
end

local ok, problem = pcall(main)
if not ok then
  say("FAIL", problem)
end
io.stdout:write(table.concat(out, "\n") .. "\n")
vim.cmd(ok and "qall!" or "cquit 1")
