;; n! of 64 bits, once by calls of itself and once by a loop
(module
  (func $recursive (export "recursive") (param $n i64) (result i64)
    (if (result i64) (i64.eqz (local.get $n))
      (then (i64.const 1))
      (else
        (i64.mul (local.get $n)
          (call $recursive (i64.sub (local.get $n) (i64.const 1)))))))

  (func (export "iterative") (param $n i64) (result i64) (local $product i64)
    i64.const 1
    local.set $product
    block $done
      loop $next
        local.get $n
        i64.eqz
        br_if $done
        local.get $product
        local.get $n
        i64.mul
        local.set $product
        local.get $n
        i64.const 1
        i64.sub
        local.set $n
        br $next
      end $next
    end $done
    local.get $product))
