;; A module that prints `hi` and a newline. `hi.wasm` is this text's binary form.
(module
  (type (func (param i32 i32 i32 i32) (result i32)))
  (type (func))
  (import "wasi_snapshot_preview1" "fd_write" (func (type 0)))
  (memory 1)
  (func (export "_start") (type 1)
    i32.const 1   ;; console output
    i32.const 0   ;; where the list of buffers stands
    i32.const 1   ;; one buffer
    i32.const 16  ;; where the count goes
    call 0
    drop)
  ;; one buffer: three bytes at address 8, and the bytes
  (data (i32.const 0) "\08\00\00\00\03\00\00\00hi\n"))
