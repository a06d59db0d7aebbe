;; Here operands are missing where the code is reached: this module isn't valid (status 126).
(module
  (func (export "_start")
    i32.add
    drop))
