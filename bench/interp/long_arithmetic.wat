;; 64-bit arithmetic: a generator of numbers by multiplication, shifts, rotations and remainders.
;; It traps unless the number is the one that it should be.
(module
  (memory 32 32)
  (func $run (result i64)
    (local $count i32) (local $x i64) (local $sum i64)
    (local.set $x (i64.const 88172645463325252))
    (loop $draws
      (local.set $x (i64.xor (local.get $x) (i64.shl (local.get $x) (i64.const 13))))
      (local.set $x (i64.xor (local.get $x) (i64.shr_u (local.get $x) (i64.const 7))))
      (local.set $x (i64.xor (local.get $x) (i64.shl (local.get $x) (i64.const 17))))
      (local.set $sum
        (i64.add
          (i64.rotl (local.get $sum) (i64.const 5))
          (i64.rem_u (i64.mul (local.get $x) (i64.const 6364136223846793005)) (i64.const 1000003))))
      (br_if $draws (i32.lt_u (local.tee $count (i32.add (local.get $count) (i32.const 1))) (i32.const 1500000))))
    (local.get $sum))
  (func (export "_start")
    (if (i64.ne (call $run) (i64.const -832693153641420583))
      (then (unreachable)))))
