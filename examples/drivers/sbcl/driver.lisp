;;;; The commands of a trace, over the runtime's own objects and its own collector.

(in-package :driver)

(defvar *commands* (make-hash-table :test 'equal))  ; word -> (what `parse' is handed . what is done)
(defvar *phase*)                        ; nil, `:running' or `:over'

(defmacro define-command (word arguments parsed &body body)
  "A command: its arguments, the kinds of its words, and what it does. It answers its reply."
  `(setf (gethash ,word *commands*) (cons ',parsed (lambda ,arguments ,@body))))

(defun register (number) (aref *registers* number))
(defun (setf register) (value number) (setf (aref *registers* number) value))
(defun area-of (object) (car (gethash object *notes*)))
(defun number-of (object) (cdr (gethash object *notes*)))

(defun shown (value)
  "The reply that shows a value."
  (cond ((null value) "nil")
        ((consp value) "cons")
        ((vectorp value) (format nil "block ~d ~d" (number-of value) (length value)))
        (t (format nil "~d" value))))

(defmacro with-cons ((cons number) &body body)
  "Does this with the cons in a register, if there is one."
  `(let ((,cons (register ,number))) (if (consp ,cons) (progn ,@body) "wrong-type")))

(defmacro with-block ((block number &optional index) &body body)
  "Does this with the block in a register, if there is one, and if it has the field."
  `(let ((,block (register ,number)))
     (cond ((not (vectorp ,block)) "wrong-type")
           ,@(and index `(((>= ,index (length ,block)) (format nil "no-field ~d" (length ,block)))))
           (t ,@body))))

(defmacro with-charge ((area words) &body body)
  "An allocation, if the quota allows it. A running collection has then finished its scan."
  `(cond ((charge ,area ,words)
          ,@body
          (when *phase* (setf *phase* :over))
          "ok")
         (t (exhausted ,area ,words))))

(defun fetched (to value)
  (setf (register to) value)
  (shown value))

;;; Registers and objects

(define-command "set" (to value) ((register plain))
  (setf (register to) value)
  "ok")

(define-command "move" (to from) ((register register))
  (setf (register to) (register from))
  "ok")

(define-command "cons" (to area car cdr) ((register area register register))
  (with-charge (area 2)
    (setf (register to) (new-cons area (register car) (register cdr)))))

(define-command "list" (to area &rest items)
    ((register area) :rest register :least 1 :most 1024 :reason "too many items")
  (with-charge (area (* 3 (length items)))
    (setf (register to) (new-list area (mapcar #'register items)))))

(define-command "make" (to area code fields) ((register area code fields))
  (with-charge (area (1+ fields))
    (setf (register to) (new-block area code (make-list fields)))))

(define-command "grow" (number wanted) ((register fields))
  (with-block (block number)
    (if (<= wanted (length block))
        "ok"
        (let ((fields (max wanted (min 2047 (1+ (* 2 (length block)))))))
          (with-charge ((area-of block) (1+ fields))
            (adjust-array block fields :initial-element nil))))))

(define-command "car" (to from) ((register register))
  (with-cons (cons from) (fetched to (car cons))))

(define-command "cdr" (to from) ((register register))
  (with-cons (cons from) (fetched to (cdr cons))))

(define-command "rplaca" (number from) ((register register))
  (with-cons (cons number) (rplaca cons (register from)) "ok"))

(define-command "rplacd" (number from) ((register register))
  (with-cons (cons number) (rplacd cons (register from)) "ok"))

(define-command "get" (to from index) ((register register index))
  (with-block (block from index) (fetched to (aref block index))))

(define-command "put" (number index from) ((register index register))
  (with-block (block number index) (setf (aref block index) (register from)) "ok"))

(define-command "size" (number) ((register))
  (with-block (block number) (format nil "~d" (length block))))

(define-command "eq" (left right) ((register register))
  (if (eq (register left) (register right)) "t" "nil"))

;;; Collections: a flip is one whole collection of the runtime's

(define-command "flip" (chosen) ((chosen))
  (cond (*phase* "busy")
        (t (if (eq chosen :full)
               (sb-ext:gc :full t)
               (sb-ext:gc :gen (reduce #'max chosen)))
           (setf *phase* :running)
           "flipped 0")))

(define-command "scavenge" (units) ((units))
  (declare (ignore units))
  (if *phase* (progn (setf *phase* :over) "done") "not-flipped"))

(define-command "reclaim" () (())
  (ecase *phase*
    ((nil) "not-flipped")
    (:running "not-done")
    (:over (setf *phase* nil) "reclaimed")))

(define-command "page-out" (pages) ((units))
  (declare (ignore pages))
  "ok")

(define-command "stats" () (())
  (format nil "~{~a~^~%~}"
          (loop for area in *areas*
                collect (format nil "area ~a ~d ~d" (area-name area) (area-charged area) (area-quota area)))))

;;; Dumps

(defun numbered ()
  "The objects that the registers reach, in the order of their numbers, and a table of those numbers."
  (let ((order (make-array 64 :adjustable t :fill-pointer 0))
        (numbers (make-hash-table :test 'eq)))
    (flet ((visit (value)
             (loop while (and (or (consp value) (vectorp value)) (not (gethash value numbers)))
                   do (setf (gethash value numbers) (vector-push-extend value order)
                            value (and (consp value) (consp (cdr value)) (cdr value))))))
      (map nil #'visit *registers*)
      (loop for at from 0
            while (< at (length order))
            for object = (aref order at)
            do (if (consp object)
                   (progn (visit (car object)) (visit (cdr object)))
                   (map nil #'visit object))))
    (values order numbers)))

(defun group-sizes (order)
  "For each number how many conses of charge 3 make a list from it to nil, each cdr the next number; else 0."
  (let ((sizes (make-array (1+ (length order)) :initial-element 0)))
    (loop for at from (1- (length order)) downto 0
          for object = (aref order at)
          when (and (consp object) (= (number-of object) 3))
            do (setf (aref sizes at)
                     (cond ((null (cdr object)) 1)
                           ((and (plusp (aref sizes (1+ at)))
                                 (eq (cdr object) (aref order (1+ at)))
                                 (eq (area-of object) (area-of (cdr object))))
                            (1+ (aref sizes (1+ at))))
                           (t 0))))
    sizes))

(defun write-words (&rest words)
  (format *out* "~{~a~^ ~}~%" words))

(defun write-objects (order text)
  (loop with sizes = (group-sizes order)
        with at = 0
        while (< at (length order))
        do (let* ((object (aref order at))
                  (area (area-name (area-of object)))
                  (size (if (<= 1 (aref sizes at) 1024) (aref sizes at) 0)))
             (cond ((vectorp object)
                    (apply #'write-words "block" area (number-of object) (map 'list text object)))
                   ((plusp size) (apply #'write-words "run" area (mapcar text (subseq object 0 size))))
                   (t (write-words "cons" area (funcall text (car object)) (funcall text (cdr object)))))
             (incf at (max size 1)))))

(define-command "dump" () (())
  (multiple-value-bind (order numbers) (numbered)
    (flet ((text (value)
             (cond ((null value) "nil")
                   ((integerp value) value)
                   (t (format nil "#~d" (gethash value numbers))))))
      (write-words "lispm-world 2")
      (apply #'write-words "space" *space*)
      (dolist (area *areas*)
        (write-words "area" (area-name area) (area-kind area) (area-quota area)))
      (apply #'write-words "capacity" *capacity*)
      (write-objects order #'text)
      (loop for value across *registers*
            for number from 0
            when value do (write-words "root" number (text value)))))
  "end-world")

;;; A run

(defun answer (words)
  (destructuring-bind (parsed . action)
      (or (gethash (first words) *commands*) (bad "unknown command"))
    (write-line (apply action (apply #'parse words parsed)) *out*)))

(defun run ()
  "Answers an input, and returns the status."
  (read-world)
  (loop for words = (words-of (next-line))
        until (string= (first words) "end")
        do (answer words)
        finally (parse words '()))
  (check-at-end)
  0)

(defun status ()
  (handler-case
      (let ((status (catch 'ended (run))))
        (finish-output *out*)
        status)
    (stream-error () 1)
    (storage-condition () 5)
    (sb-sys:interactive-interrupt () 130)))

(defun main ()
  (let ((*in* (sb-sys:make-fd-stream 0 :input t :buffering :full :external-format :latin-1))
        (*out* (sb-sys:make-fd-stream 1 :output t :buffering :full :external-format :latin-1))
        (*line* 0)
        (*areas* '())
        (*objects* (make-array 64 :adjustable t :fill-pointer 0))
        (*named* '())
        (*rooted* '())
        (*notes* (make-hash-table :test 'eq :weakness :key))
        (*phase* nil))
    (let (*format* *space* *capacity* *registers*)
      (sb-ext:exit :code (status) :abort t))))
