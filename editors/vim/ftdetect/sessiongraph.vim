autocmd BufRead,BufNewFile *.graph,*.parts,*.schedule setfiletype sessiongraph
