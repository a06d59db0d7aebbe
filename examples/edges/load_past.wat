;; A load that passes the page by one byte traps (status 134).
(module
  (import "wasi_snapshot_preview1" "proc_exit" (func $proc_exit (param i32)))
  (memory 1)
  (func (export "_start")
    (call $proc_exit (i32.load offset=1 (i32.const 65532)))))
