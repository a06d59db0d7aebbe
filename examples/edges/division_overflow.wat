;; The least number divided by -1: the quotient is none of 32 bits, so the division traps (status 134).
(module
  (import "wasi_snapshot_preview1" "proc_exit" (func $proc_exit (param i32)))
  (func (export "_start")
    (call $proc_exit (i32.div_s (i32.const 2147483648) (i32.const 4294967295)))))
