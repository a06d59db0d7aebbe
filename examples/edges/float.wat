;; It ends with 7 as seven.wat does, but a further function has a floating-point number (status 126).
(module
  (import "wasi_snapshot_preview1" "proc_exit" (func $proc_exit (param i32)))
  (func (export "_start")
    (call $proc_exit (i32.const 7)))
  (func
    (drop (f64.const 0))))
