-- Tries the client of editors/nvim in Neovim without a window; tests/lsp/clients calls it. PSG is the launcher.
local here = vim.fn.fnamemodify(vim.fn.resolve(vim.fn.expand("<sfile>:p")), ":h")
vim.opt.runtimepath:append(here .. "/../../editors/nvim")
local mini = here .. "/../../examples/mini.psg"
local psg = require("psg")
local robot = here .. "/../../examples/gallery/robot.psg"
psg.setup({ psg = os.getenv("PSG"), languages = {
  { pattern = "*.mini", definition = mini, kind = "Stats" },
  { pattern = "*.robot", definition = robot, kind = "Program" },
} })

local function told()
  return vim.tbl_map(function(it)
    return string.format("%d:%d-%d:%d %d %s", it.lnum, it.col, it.end_lnum, it.end_col, it.severity, it.message)
  end, vim.diagnostic.get(0))
end

-- what the server answers to a question about a place of the text
local function asked(method, line, column)
  local params = {
    textDocument = vim.lsp.util.make_text_document_params(),
    position = { line = line, character = column },
  }
  for _, answer in pairs(vim.lsp.buf_request_sync(0, method, params, 20000) or {}) do
    return answer.result
  end
end

local failed = 0
local function want(what, wanted, given)
  vim.wait(20000, function() return vim.deep_equal(given(), wanted) end, 10)
  if not vim.deep_equal(given(), wanted) then
    failed = failed + 1
    io.stdout:write(what, ": came ", vim.inspect(given()), "\n  wanted ", vim.inspect(wanted), "\n")
  end
end

local function run()
  local file = vim.fn.tempname() .. ".mini"
  vim.fn.writefile({ "x := 1;", "𝒳 :=  true;", "x := 𝒳" }, file)
  vim.cmd("edit " .. file)
  want("the menu's key", "v:lua.vim.lsp.omnifunc", function() return vim.bo.omnifunc end)
  -- the column of the last line is that of a text in which a character has two units
  want("diagnostics", {
    "0:0-0:1 2 x is not declared",
    "1:0-1:4 2 𝒳 is not declared",
    "2:5-2:9 1 𝒳 does not fit here, wanted var(int), used otherwise before",
  }, told)
  vim.api.nvim_buf_set_lines(0, 1, 3, false, { "?Stat" })
  want("a change", {
    "0:0-0:1 2 x is not declared",
    "1:0-1:5 4 ?Stat is open: block assign call while skip",
  }, told)
  vim.api.nvim_buf_set_lines(0, 0, -1, false, { "x :=  1;", "skip" })
  want("another change", { "0:0-0:1 2 x is not declared" }, told)
  psg.format()
  want("formatting", { "x := 1;", "skip" }, function() return vim.api.nvim_buf_get_lines(0, 0, -1, false) end)
  want("hover", "Stat: skip\nok", function()
    local told = asked("textDocument/hover", 1, 2)
    return told and told.contents.value
  end)
  -- no name begins with the word: all that fit an assignment, and none that fits a call yet
  local entries = { "begin ... do ... end", "x := ?Exp", "call name(...)", "while ?Exp do ... od", "skip" }
  want("completion", entries, function()
    local told = asked("textDocument/completion", 1, 4)
    return told and vim.tbl_map(function(item) return item.label end, told.items)
  end)
end

-- names: where one is declared, and a new name for all that mean the same
local function run_names()
  vim.api.nvim_buf_set_lines(0, 0, -1, false, { "begin", "  var x : int", "do", "  x := 1", "end" })
  want("definition", { start = { line = 1, character = 6 }, ["end"] = { line = 1, character = 7 } }, function()
    local place = asked("textDocument/definition", 3, 2)
    return place and place.range
  end)
  vim.api.nvim_win_set_cursor(0, { 4, 2 })
  vim.lsp.buf.rename("total")
  want("rename", { "begin", "  var total : int", "do", "  total := 1", "end" }, function()
    return vim.api.nvim_buf_get_lines(0, 0, -1, false)
  end)
end

-- a program of the gallery with two mistakes and three open places, from the first mark to a program that is laid out
local function run_gallery()
  local file = vim.fn.tempname() .. ".robot"
  vim.fn.writefile({
    "robot",
    "  let pace = 2 metre / 1 second;",
    "  drive 3 second at pace;",
    "  turn ?Exp;",
    "  wait 4 metre;",
    "  repeat 2 times ... again;",
    "  ...",
    "end",
  }, file)
  vim.cmd("edit " .. file)
  want("two mistakes", {
    "2:8-2:9 1 wanted length, found time",
    "4:7-4:8 1 wanted time, found length",
  }, told)
  -- in a wrong program too the menu is that of the place
  local turns = { "name", "?Exp degree", "?Exp + ?Exp", "?Exp * ?Exp", "?Exp / ?Exp" }
  want("the menu of an open place", turns, function()
    local found = asked("textDocument/completion", 3, 11)
    return found and vim.tbl_map(function(item) return item.label end, found.items)
  end)
  vim.api.nvim_buf_set_lines(0, 2, 3, false, { "  drive 3 metre at pace;" })
  vim.api.nvim_buf_set_lines(0, 4, 5, false, { "  wait   4 second;" })
  want("three open places", {
    "3:7-3:11 4 ?Exp is open, wanted angle: name degree plus times per",
    "5:17-5:18 4 the list is open: drive turn wait grab repeat let do",
    "6:2-6:3 4 the list is open: drive turn wait grab repeat let do",
  }, told)
  want("hover", "Exp: name\nspeed", function()
    local found = asked("textDocument/hover", 2, 20)
    return found and found.contents.value
  end)
  vim.api.nvim_buf_set_lines(0, 3, 4, false, { "  turn 90 degree;" })
  vim.api.nvim_win_set_cursor(0, { 2, 6 })
  vim.lsp.buf.rename("speed")
  want("rename", { "  let speed = 2 metre / 1 second;", "  drive 3 metre at speed;" }, function()
    return vim.api.nvim_buf_get_lines(0, 1, 3, false)
  end)
  psg.format()
  want("formatting", { "  wait 4 second;" }, function() return vim.api.nvim_buf_get_lines(0, 4, 5, false) end)
end

local good, fault = pcall(function() run() run_names() run_gallery() end)
if not good then
  failed = failed + 1
  io.stdout:write(tostring(fault), "\n")
end
io.stdout:write(failed == 0 and "nvim: passed\n" or "nvim: failed\n")
vim.cmd(failed == 0 and "qall!" or "cquit!")
