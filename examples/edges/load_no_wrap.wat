;; Address and offset are added without wrap: 4294967295 and 1 name no byte 0 (status 134).
(module
  (import "wasi_snapshot_preview1" "proc_exit" (func $proc_exit (param i32)))
  (memory 1)
  (func (export "_start")
    (call $proc_exit (i32.load offset=1 (i32.const 4294967295)))))
