;; The smallest module that says something: it ends with exit code 7. `seven.wasm` is this text's binary form.
(module
  (type (func (param i32)))
  (type (func))
  (import "wasi_snapshot_preview1" "proc_exit" (func (type 0)))
  (func (export "_start") (type 1)
    i32.const 7
    call 0))
