;; The remainder of the least number by -1 is 0, and doesn't trap (status 0).
(module
  (import "wasi_snapshot_preview1" "proc_exit" (func $proc_exit (param i32)))
  (func (export "_start")
    (call $proc_exit (i32.rem_s (i32.const 2147483648) (i32.const 4294967295)))))
