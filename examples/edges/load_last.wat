;; A load of the last four bytes of a page gives their number (status 42).
(module
  (import "wasi_snapshot_preview1" "proc_exit" (func $proc_exit (param i32)))
  (memory 1)
  (func (export "_start")
    (call $proc_exit (i32.load (i32.const 65532))))
  (data (i32.const 65532) "\2a\00\00\00"))
