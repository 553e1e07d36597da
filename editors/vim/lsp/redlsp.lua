-- For Neovim from 0.11 on: `vim.lsp.enable('redlsp')` starts the program for files of the type redplay.
return {
  cmd = { 'redlsp' },
  filetypes = { 'redplay' },
  root_markers = { 'a' },
}
