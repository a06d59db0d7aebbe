;; A first guest: it prints one line and returns. docs/FIRST_GUEST.md explains it line by line.
(module
  (import "wasi_snapshot_preview1" "fd_write"
    (func $fd_write (param $fd i32) (param $list i32) (param $buffers i32) (param $moved i32) (result i32)))

  (memory (export "memory") 1)

  ;; at 0 the list of one buffer: its address, 16, and its length, 12; at 8 the host puts how many bytes it took
  (data (i32.const 0) "\10\00\00\00\0c\00\00\00")
  (data (i32.const 16) "hello wasix\n")

  (func (export "_start")
    (call $fd_write
      (i32.const 1)   ;; console output
      (i32.const 0)   ;; where the list of buffers stands
      (i32.const 1)   ;; one buffer
      (i32.const 8))  ;; where the count goes
    drop))
