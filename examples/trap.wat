;; A module that prints a line and then traps. Its process is ended by the signal abrt: status 128 + 6.
(module
  (import "wasi_snapshot_preview1" "fd_write" (func $fd_write (param i32 i32 i32 i32) (result i32)))
  (memory 1)
  (func (export "_start")
    (drop (call $fd_write (i32.const 1) (i32.const 0) (i32.const 1) (i32.const 16)))
    unreachable)
  ;; one buffer: 16 bytes at address 32
  (data (i32.const 0) "\20\00\00\00\10\00\00\00")
  (data (i32.const 32) "before the trap\n"))
