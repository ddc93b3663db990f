% Prints the pitch classes of each chord symbol that musicxml2ly wrote into score.ly: that of the bass or a dash, then those of
% the tones from the root up. It engraves nothing.
\version "2.24.0"
#(define toplevel-score-handler (const #f))
\include "score.ly"

#(define (is-bass note) (ly:music-property note 'bass #f))
#(define (class-of note) (modulo (ly:pitch-semitones (ly:music-property note 'pitch)) 12))

#(define (print-chord chord)
   (let* ((notes (ly:music-property chord 'elements))
          (bass (find is-bass notes)))
     (format #t "~a~{ ~a~}\n" (if bass (class-of bass) "-") (map class-of (remove is-bass notes)))))

#(for-each print-chord (extract-named-music PartPOneVoiceOneChords 'EventChord))
