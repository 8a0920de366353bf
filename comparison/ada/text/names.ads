--  The names of entries, whatever text they are of: an entry is named by its place.
package Names is

   type Entry_Name is
     (Entry_1, Entry_2, Entry_3, Entry_4, Entry_5, Entry_6, Entry_7, Entry_8, Entry_9, Entry_10, Entry_11, Entry_12, Entry_13,
      Entry_14, Entry_15, Entry_16, Entry_17, Entry_18, Entry_19, Entry_20, Entry_21, Entry_22, Entry_23, Entry_24, Entry_25,
      Entry_26, Entry_27, Entry_28, Entry_29, Entry_30, Entry_31, Entry_32);

   --  The name as scripts of texts.py write it: a capital letter, then small ones.
   function Image (Name : Entry_Name) return String;

end Names;
