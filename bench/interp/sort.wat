;; Sorting: 60,000 numbers in memory by a heap, and then a sum that depends on their order.
;; It traps unless the number is the one that it should be.
(module
  (memory 32 32)
  (func $sift (param $root i32) (param $end i32)
    (local $child i32) (local $value i32) (local $other i32)
    (local.set $value (i32.load (i32.shl (local.get $root) (i32.const 2))))
    (block $done
      (loop $down
        (local.set $child (i32.add (i32.shl (local.get $root) (i32.const 1)) (i32.const 1)))
        (br_if $done (i32.ge_u (local.get $child) (local.get $end)))
        (if (i32.lt_u (i32.add (local.get $child) (i32.const 1)) (local.get $end))
          (then
            (if (i32.lt_u
                  (i32.load (i32.shl (local.get $child) (i32.const 2)))
                  (i32.load offset=4 (i32.shl (local.get $child) (i32.const 2))))
              (then (local.set $child (i32.add (local.get $child) (i32.const 1)))))))
        (local.set $other (i32.load (i32.shl (local.get $child) (i32.const 2))))
        (br_if $done (i32.ge_u (local.get $value) (local.get $other)))
        (i32.store (i32.shl (local.get $root) (i32.const 2)) (local.get $other))
        (local.set $root (local.get $child))
        (br $down)))
    (i32.store (i32.shl (local.get $root) (i32.const 2)) (local.get $value)))
  (func $run (result i64)
    (local $at i32) (local $x i32) (local $sum i64)
    (local.set $x (i32.const 12345))
    (loop $fill
      (local.set $x (i32.add (i32.mul (local.get $x) (i32.const 1664525)) (i32.const 1013904223)))
      (i32.store (i32.shl (local.get $at) (i32.const 2)) (i32.shr_u (local.get $x) (i32.const 4)))
      (br_if $fill (i32.lt_u (local.tee $at (i32.add (local.get $at) (i32.const 1))) (i32.const 60000))))
    (local.set $at (i32.const 30000))
    (loop $heap
      (local.set $at (i32.sub (local.get $at) (i32.const 1)))
      (call $sift (local.get $at) (i32.const 60000))
      (br_if $heap (local.get $at)))
    (local.set $at (i32.const 60000))
    (loop $take
      (local.set $at (i32.sub (local.get $at) (i32.const 1)))
      (local.set $x (i32.load (i32.const 0)))
      (i32.store (i32.const 0) (i32.load (i32.shl (local.get $at) (i32.const 2))))
      (i32.store (i32.shl (local.get $at) (i32.const 2)) (local.get $x))
      (call $sift (i32.const 0) (local.get $at))
      (br_if $take (i32.gt_u (local.get $at) (i32.const 1))))
    (local.set $at (i32.const 0))
    (loop $read
      (local.set $sum
        (i64.add
          (i64.mul (local.get $sum) (i64.const 31))
          (i64.load32_u (i32.shl (local.get $at) (i32.const 2)))))
      (br_if $read (i32.lt_u (local.tee $at (i32.add (local.get $at) (i32.const 1))) (i32.const 60000))))
    (local.get $sum))
  (func (export "_start")
    (if (i64.ne (call $run) (i64.const -2059237690092071236))
      (then (unreachable)))))
