# The baseline in jq: the last value of each object (jq -c -n -f fold.jq < feed). It stages nothing, so a feed must end
# with a token, and it spells objects again. One flat map, since jq is quadratic on nested ones: "type\tid" is an object,
# "type\n" a singleton's object, or [] for a collection.
def without($t): with_entries(select(.key | (startswith($t + "\t") or . == $t + "\n") | not));
reduce (inputs | select(.type)) as $n ({};
  if $n.id != null then
    (if $n.data == null then delpaths([[$n.type + "\t" + $n.id]])
     else .[$n.type + "\n"] = [] | .[$n.type + "\t" + $n.id] = $n.data end)
  elif $n.data == null then without($n.type)
  elif ($n.data | type) == "array" then
    without($n.type) | .[$n.type + "\n"] = [] | reduce $n.data[] as $o (.; .[$n.type + "\t" + $o.id] = $o)
  else without($n.type) | .[$n.type + "\n"] = $n.data end)
| length
