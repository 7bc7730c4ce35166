setlocal commentstring=#\ %s comments=:#
compiler cga_lint
