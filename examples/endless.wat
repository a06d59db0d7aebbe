;; A module that prints without end, 1,024 lines of 64 bytes a call. The run ends where the history may weigh no more: status 124.
(module
  (import "wasi_snapshot_preview1" "fd_write" (func $fd_write (param i32 i32 i32 i32) (result i32)))
  (memory 1)
  (func (export "_start")
    (local $at i32)
    ;; 1,024 buffers from address 0 on, each of them the line
    (loop $buffers
      (i32.store (local.get $at) (i32.const 8448))
      (i32.store offset=4 (local.get $at) (i32.const 64))
      (br_if $buffers
        (i32.lt_u (local.tee $at (i32.add (local.get $at) (i32.const 8))) (i32.const 8192))))
    (loop $again
      (drop (call $fd_write (i32.const 1) (i32.const 0) (i32.const 1024) (i32.const 8192)))
      (br $again)))
  (data (i32.const 8448) "again and again the same line of sixty-four bytes is printed ..\n"))
