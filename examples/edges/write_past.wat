;; A write whose list of buffers ends one byte past the memory: the call answers fault, nothing is printed, and the process goes on. It
;; exits with what the call answered (status 21).
(module
  (import "wasi_snapshot_preview1" "fd_write" (func $fd_write (param i32 i32 i32 i32) (result i32)))
  (import "wasi_snapshot_preview1" "proc_exit" (func $proc_exit (param i32)))
  (memory 1)
  (func (export "_start")
    (call $proc_exit (call $fd_write (i32.const 1) (i32.const 65529) (i32.const 1) (i32.const 0)))))
