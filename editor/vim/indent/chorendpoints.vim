runtime! indent/chor.vim
