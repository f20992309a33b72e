# Brings what was written before the words of this repository were chosen to these words: sed -E -f docs/renames.sed
s/\bNature\b/StoreConstants/g
s/\b(hash_|mem_)?nature\b/\1constants/g
s/\bShown\b/StoreView/g
s/\b(hash|mem)_shown\b/\1_view/g
s/\bshown\b/store_view/g
s/\bHashStood\b/HashKeptSince/g
s/\bstood\b/kept_since/g
s/\bmade (\(?[a-z_]*constants)/groups_made_by \1/g
s/\b(Hash|Mem)Prepared\b/\1Reserved/g
s/\bprepared\b/reserved/g
s/\bstaged\b/reserved_group/g
s/\bIsStaged\b/IsReservedGroup/g
s/\bStaged\b/ReservedGroup/g
s/\bIsReady\b/IsReservedText/g
s/\bsaid\b/body_said/g
s/\bis_home\b/is_in_its_shard/g
s/\bAllHome\b/AllInItsShard/g
s/\bAllAtHome\b/AllBodiesInShard/g
s/\bshort_status\b/status_unless_long/g
s/\bnameless\b/no_header/g
s/\bshort\b/unless_long/g
