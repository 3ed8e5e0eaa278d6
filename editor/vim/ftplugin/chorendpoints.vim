" Endpoint files of Chor are written as its sources are.
runtime! ftplugin/chor.vim
setlocal suffixesadd=.endpoints
