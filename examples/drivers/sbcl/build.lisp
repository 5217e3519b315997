;;;; build.lisp PROGRAM  compiles the driver and saves it as a program that starts at once.

(defpackage :driver (:use :common-lisp))

(let ((here (directory-namestring *load-truename*))
      (program (car (last sb-ext:*posix-argv*))))
  (dolist (name '("input" "world" "driver"))
    (load (compile-file (format nil "~a~a.lisp" here name)
                        :output-file (format nil "~a-~a.fasl" program name))))
  (sb-ext:disable-debugger)
  (sb-ext:save-lisp-and-die program :toplevel (intern "MAIN" :driver)
                                    :executable t :save-runtime-options t))
