(module
  (memory (export "memory") 1)

  (func $swap (param $a i32) (param $b i32) (local $kept i64)
    (local.set $kept (i64.load (local.get $a)))
    (i64.store (local.get $a) (i64.load (local.get $b)))
    (i64.store (local.get $b) (local.get $kept)))

  ;; Sorts so many numbers of 64 bits by insertion.
  (func (export "sort") (param $start i32) (param $count i32) (local $end i32) (local $i i32) (local $j i32)
    (local.set $end (i32.add (local.get $start) (i32.mul (local.get $count) (i32.const 8))))
    (local.set $i (local.get $start))
    (block $sorted
      (loop $outer
        (br_if $sorted (i32.ge_u (local.get $i) (local.get $end)))
        (local.set $j (local.get $i))
        (block $placed
          (loop $inner
            (br_if $placed (i32.le_u (local.get $j) (local.get $start)))
            (br_if $placed (i64.le_s (i64.load (i32.sub (local.get $j) (i32.const 8))) (i64.load (local.get $j))))
            (call $swap (i32.sub (local.get $j) (i32.const 8)) (local.get $j))
            (local.set $j (i32.sub (local.get $j) (i32.const 8)))
            (br $inner)))
        (local.set $i (i32.add (local.get $i) (i32.const 8)))
        (br $outer)))))
