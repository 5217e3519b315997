;;;; The lines of an input, their words, and why one is refused (docs/FORMATS.md).

(in-package :driver)

(defvar *in*)                           ; standard input, a character a byte
(defvar *out*)                          ; standard output
(defvar *line*)                         ; the number of the line that was read last
(defconstant +longest+ 32768)           ; the most bytes of a line

(defun refuse (status control &rest arguments)
  "Ends the run with an error line."
  (format *out* "error line ~d: ~?~%" *line* control arguments)
  (throw 'ended status))

(defun bad (control &rest arguments)
  (apply #'refuse 2 control arguments))

(defun next-line ()
  "The next line without its line feed. What was answered is written before more is waited for."
  (incf *line*)
  (unless (listen *in*) (finish-output *out*))
  (let ((line (make-string-output-stream)))
    (loop for length from 0
          for byte = (read-char *in* nil nil)
          do (cond ((null byte)
                    (when (and (= length 0) (> *line* 1)) (bad "no end"))
                    (return))
                   ((char= byte #\Newline) (return))
                   ((= length +longest+) (bad "line too long"))
                   (t (write-char byte line))))
    (get-output-stream-string line)))

(defun check-at-end ()
  "Nothing may follow the line that ends an input."
  (unless (listen *in*) (finish-output *out*))
  (incf *line*)
  (when (read-char *in* nil nil) (bad "text after end")))

(defun well-formed-p (line)
  (and (string/= line "")
       (every (lambda (byte) (<= 32 (char-code byte) 126)) line)
       (char/= (char line 0) #\Space)
       (char/= (char line (1- (length line))) #\Space)
       (not (search "  " line))))

(defun words-of (line)
  "The words of a well-formed line."
  (unless (well-formed-p line) (bad "bad line"))
  (loop for start = 0 then (1+ end)
        for end = (position #\Space line :start start)
        collect (subseq line start end)
        while end))

;;; Words of each kind. A reader answers what the word says, or nil.

(defun digits (word start)
  "The number in a word from a place on."
  (let ((text (subseq word start)))
    (and (string/= text "")
         (every #'digit-char-p text)
         (or (string= text "0") (char/= (char text 0) #\0))
         (parse-integer text))))

(defun number-in (word low high &optional (start 0))
  (let ((number (digits word start)))
    (and number (<= low number high) number)))

(defun starts-p (word letter)
  (and (string/= word "") (char= (char word 0) letter)))

(defun integer-in (word)
  (if (starts-p word #\-)
      (let ((number (number-in word 1 2147483648 1))) (and number (- number)))
      (number-in word 0 2147483647)))

(defstruct reference number)            ; `#k' in a world, until the objects exist

(defun value-in (word)
  "A value; a word that is none is refused here, since nil is one. References are given by number."
  (cond ((string= word "nil") nil)
        ((starts-p word #\#)
         (make-reference :number (or (number-in word 0 4294967295 1) (bad "bad value"))))
        (t (or (integer-in word) (bad "bad value")))))

(defun name-p (word)
  (and (<= 1 (length word) 16)
       (char<= #\a (char word 0) #\z)
       (every (lambda (byte) (find byte "abcdefghijklmnopqrstuvwxyz0123456789-")) word)))

(defun pieces (word)
  "The pieces of a word between commas."
  (loop for start = 0 then (1+ end)
        for end = (position #\, word :start start)
        collect (subseq word start end)
        while end))

(defun levels-in (word levels)
  "The levels of a flip, ascending, or `:full'."
  (if (string= word "full")
      :full
      (let ((chosen (loop for piece in (pieces word) collect (number-in piece 1 levels))))
        (and (notany #'null chosen) (apply #'< chosen) chosen))))

(defparameter *ranges*
  '((regions 5 1024) (frames 32 4096) (registers 1 256) (levels 1 6) (rate 0 16)
    (quota 0 1048576) (capacity 0 16777216) (code 0 65535) (fields 0 2047)
    (index 0 4294967295) (units 0 4294967295)))
