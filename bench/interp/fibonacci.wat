;; Recursive calls: the Fibonacci number of 30, by its two predecessors.
;; It traps unless the number is the one that it should be.
(module
  (memory 32 32)
  (func $fibonacci (param $n i32) (result i64)
    (if (result i64) (i32.lt_u (local.get $n) (i32.const 2))
      (then (i64.extend_i32_u (local.get $n)))
      (else
        (i64.add
          (call $fibonacci (i32.sub (local.get $n) (i32.const 1)))
          (call $fibonacci (i32.sub (local.get $n) (i32.const 2)))))))
  (func $run (result i64)
    (call $fibonacci (i32.const 30)))
  (func (export "_start")
    (if (i64.ne (call $run) (i64.const 832040))
      (then (unreachable)))))
