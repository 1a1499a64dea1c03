-- A client of psg's language server for Neovim, 0.7 and later.
--
--   vim.opt.runtimepath:append("/path/to/psg/editors/nvim")
--   require("psg").setup({
--     psg = "/path/to/psg/psg",
--     languages = { { pattern = "*.melody", definition = "/path/to/melody.psg", kind = "Melody" } },
--   })
--
-- A file whose name fits a pattern is a program of the kind. While it is edited its mistakes are marked; `psg.format()` lays it
-- out as the printer does.
local psg = {}

-- The client of a language, which all its files share.
local function start(options, language)
  if language.client and vim.lsp.get_client_by_id(language.client) then
    return language.client
  end
  language.client = vim.lsp.start_client({
    name = "psg",
    cmd = { options.psg or "psg", "lsp", language.definition, language.kind },
    root_dir = vim.fn.getcwd(),
    capabilities = vim.lsp.protocol.make_client_capabilities(),
    on_init = function(client, result)
      -- before 0.10 the encoding that was agreed on is not read
      local agreed = result.capabilities.positionEncoding
      if agreed then client.offset_encoding = agreed end
      return true
    end,
  })
  return language.client
end

-- Attaches the client of the language to the buffer.
function psg.attach(options, language, buffer)
  local client = start(options, language)
  if client then
    vim.lsp.buf_attach_client(buffer, client)
    -- the menu, at Ctrl-X Ctrl-O
    vim.api.nvim_buf_set_option(buffer, "omnifunc", "v:lua.vim.lsp.omnifunc")
  end
  return client
end

-- Lays the program out; a text that is no program stays as it is.
function psg.format(buffer)
  buffer = buffer or vim.api.nvim_get_current_buf()
  local params = { textDocument = { uri = vim.uri_from_bufnr(buffer) }, options = { tabSize = 2, insertSpaces = true } }
  local answers = vim.lsp.buf_request_sync(buffer, "textDocument/formatting", params, 5000) or {}
  for number, answer in pairs(answers) do
    local client = vim.lsp.get_client_by_id(number)
    if client and client.name == "psg" and type(answer.result) == "table" then
      vim.lsp.util.apply_text_edits(answer.result, buffer, client.offset_encoding)
    end
  end
end

function psg.setup(options)
  -- a mistake is shown before a warning on the same line
  vim.diagnostic.config({ severity_sort = true })
  local group = vim.api.nvim_create_augroup("psg", { clear = true })
  for _, language in ipairs(options.languages or {}) do
    vim.api.nvim_create_autocmd({ "BufReadPost", "BufNewFile" }, {
      group = group,
      pattern = language.pattern,
      callback = function(args)
        psg.attach(options, language, args.buf)
      end,
    })
  end
end

return psg
