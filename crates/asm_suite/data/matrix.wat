(module
  (type $at (func (param $row i32) (param $column i32) (result i32)))
  (memory 1)
  (func $grown (result i32)
    (i32.ne (memory.grow (i32.const 1)) (i32.const -1)))
  (func $place (type $at)
    (i32.mul (i32.add (i32.mul (local.get 0) (i32.const 4)) (local.get 1)) (i32.const 4)))
  ;; the product of the matrices at 0 and at 64, of four rows and columns, goes to 128
  (func $multiply (export "multiply") (local $row i32) (local $column i32) (local $k i32) (local $sum i32)
    (loop $rows
      (local.set $column (i32.const 0))
      (loop $columns
        (local.set $k (i32.const 0))
        (local.set $sum (i32.const 0))
        (loop $sums
          (local.set $sum
            (i32.add (local.get $sum)
              (i32.mul
                (i32.load (call $place (local.get $row) (local.get $k)))
                (i32.load offset=64 (call $place (local.get $k) (local.get $column))))))
          (br_if $sums
            (i32.lt_u (local.tee $k (i32.add (local.get $k) (i32.const 1))) (i32.const 4))))
        (i32.store offset=128 align=1 (call $place (local.get $row) (local.get $column)) (local.get $sum))
        (br_if $columns
          (i32.lt_u (local.tee $column (i32.add (local.get $column) (i32.const 1))) (i32.const 4))))
      (br_if $rows
        (i32.lt_u (local.tee $row (i32.add (local.get $row) (i32.const 1))) (i32.const 4)))))
  (func (export "room") (result i32)
    (if (result i32) (call $grown) (then (memory.size)) (else (i32.const 0)))))
