" :make says where wsc refuses the file: compile of a job, check of an assembly.
let current_compiler = 'wsc'
let s:command = &filetype ==# 'wsasm' ? 'check' : 'compile'
if exists(':CompilerSet') != 2
  command -nargs=* CompilerSet setlocal <args>
endif
execute 'CompilerSet makeprg=wsc-why\ --brief\ ' . s:command . '\ %:S'
CompilerSet errorformat=%f:%l:%c:\ %m
