" `:make` lists what girzohal found, with the end of each place.
let &makeprg = 'make 2>&1 \| girzohal --to problems --only-findings'
set errorformat=%f:%l:%c:%e:%k:\ %t%*[a-z][%*[^]]]:\ %m,%f:%l:%c:%e:%k:\ %t%*[a-z]:\ %m
