;; Reads texts, one a line in hexadecimal digits, and writes the forms of each in the normal form of compare_edn.py.
(require '[clojure.edn :as edn] '[clojure.string :as string])
(import '(java.io PushbackReader StringReader))

(defn hex [s] (apply str (map #(format "%02x" (bit-and % 0xff)) (.getBytes ^String s "UTF-8"))))
(declare normal)
(defn all [open forms] (str open " " (apply str (map #(str (normal %) " ") forms)) ")"))
(defn normal [x]
  (cond
    (nil? x) "nil"
    (instance? Boolean x) (str x)
    (integer? x) (str "i" x)
    (ratio? x) (str "r" (numerator x) "/" (denominator x))
    (decimal? x) (str "m" (.unscaledValue ^BigDecimal x) "e" (- (.scale ^BigDecimal x)))
    (float? x) (str "f" x)
    (string? x) (str "s" (hex x))
    (char? x) (str "c" (int x))
    (keyword? x) (str "k" (hex (subs (str x) 1)))
    (symbol? x) (str "y" (hex (str x)))
    (tagged-literal? x) (normal (:form x))
    (list? x) (all "(" x)
    (vector? x) (all "[" x)
    (set? x) (all "#" x)
    (map? x) (all "{" (mapcat identity x))
    :else (str "?" (class x))))

(defn answer [text]
  (let [reader (PushbackReader. (StringReader. text))
        options {:default tagged-literal :eof ::end
                 :readers {'inst #(tagged-literal 'inst %) 'uuid #(tagged-literal 'uuid %)}}]
    (loop [forms []]
      (let [form (try (edn/read options reader) (catch Throwable e [::refused (str (.getMessage e))]))]
        (cond
          (= form ::end) (string/join " " forms)
          (and (vector? form) (= (first form) ::refused)) (str "! " (second form))
          :else (recur (conj forms (normal form))))))))

(defn bytes-of [line] (byte-array (map #(unchecked-byte (Integer/parseInt (apply str %) 16)) (partition 2 line))))

(doseq [line (line-seq (java.io.BufferedReader. *in*))]
  (println (string/replace (answer (String. ^bytes (bytes-of line) "UTF-8")) "\n" " ")))
