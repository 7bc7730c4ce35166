-- Neovim from 0.7 on: starts the language server for a script. Vim doesn't read this file.
-- g:cga_language_server, else the server of a repository above the script, else one on the PATH
local function command()
  local named = vim.g.cga_language_server
  if named then
    return type(named) == "table" and named or { named }
  end
  local folder = vim.fn.fnameescape(vim.fn.expand("%:p:h"))
  local found = vim.fn.findfile("tools/language_server", folder .. ";")
  local path = found ~= "" and vim.fn.fnamemodify(found, ":p") or vim.fn.exepath("language_server")
  return path ~= "" and { path } or nil
end

local cmd = command()
if cmd then
  local config = { name = "cga_city", cmd = cmd, root_dir = vim.fn.expand("%:p:h") }
  if vim.lsp.start then
    vim.lsp.start(config)
  else
    vim.g.cga_client = vim.g.cga_client or vim.lsp.start_client(config)
    vim.lsp.buf_attach_client(0, vim.g.cga_client)
  end
  vim.bo.omnifunc = "v:lua.vim.lsp.omnifunc"
  local keys = { K = "hover", gd = "definition", gr = "references", ["<F2>"] = "rename" }
  for key, name in pairs(keys) do
    vim.keymap.set("n", key, vim.lsp.buf[name], { buffer = true })
  end
end
