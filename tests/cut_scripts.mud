# A replay of a script that is cut behind each of its bytes: an input that ends within an item has its fault there, and one that ends
# between items at its end. The cases were written by a loop.
status: 2
--- /secure/master.c
object connect() { return this_object(); }
int logon() { write("Hello\n"); return 1; }
--- play
connect 1
line 1: x
end
--- written

=== cut_behind_0_bytes
cut: 0
--- told
at byte 0 of the script

=== cut_behind_1_byte
cut: 1
--- told
at byte 0 of the script

=== cut_behind_2_bytes
cut: 2
--- told
at byte 0 of the script

=== cut_behind_3_bytes
cut: 3
--- told
at byte 0 of the script

=== cut_behind_4_bytes
cut: 4
--- told
at byte 0 of the script

=== cut_behind_5_bytes
cut: 5
--- told
at byte 0 of the script

=== cut_behind_6_bytes
cut: 6
--- told
at byte 0 of the script

=== cut_behind_7_bytes
cut: 7
--- told
at byte 0 of the script

=== cut_behind_8_bytes
cut: 8
--- told
at byte 0 of the script

=== cut_behind_9_bytes
cut: 9
--- told
at byte 0 of the script

=== cut_behind_10_bytes
cut: 10
--- told
at byte 0 of the script

=== cut_behind_11_bytes
cut: 11
--- told
at byte 0 of the script

=== cut_behind_12_bytes
cut: 12
--- told
at byte 0 of the script

=== cut_behind_13_bytes
cut: 13
--- told
at byte 0 of the script

=== cut_behind_14_bytes
cut: 14
--- told
at byte 0 of the script

=== cut_behind_15_bytes
cut: 15
--- told
at byte 0 of the script

=== cut_behind_16_bytes
cut: 16
--- told
at byte 16 of the script

=== cut_behind_17_bytes
cut: 17
--- told
at byte 16 of the script

=== cut_behind_18_bytes
cut: 18
--- told
at byte 16 of the script

=== cut_behind_19_bytes
cut: 19
--- told
at byte 16 of the script

=== cut_behind_20_bytes
cut: 20
--- told
at byte 16 of the script

=== cut_behind_21_bytes
cut: 21
--- told
at byte 16 of the script

=== cut_behind_22_bytes
cut: 22
--- told
at byte 16 of the script

=== cut_behind_23_bytes
cut: 23
--- told
at byte 16 of the script

=== cut_behind_24_bytes
cut: 24
--- told
at byte 16 of the script

=== cut_behind_25_bytes
cut: 25
--- told
at byte 16 of the script

=== cut_behind_26_bytes
cut: 26
--- told
at byte 16 of the script

=== cut_behind_27_bytes
cut: 27
--- told
at byte 16 of the script

=== cut_behind_28_bytes
cut: 28
--- told
at byte 16 of the script

=== cut_behind_29_bytes
cut: 29
--- told
at byte 16 of the script

=== cut_behind_30_bytes
cut: 30
--- told
at byte 16 of the script

=== cut_behind_31_bytes
cut: 31
--- told
at byte 16 of the script

=== cut_behind_32_bytes
cut: 32
--- told
at byte 16 of the script

=== cut_behind_33_bytes
cut: 33
--- told
at byte 16 of the script

=== cut_behind_34_bytes
cut: 34
--- told
at byte 16 of the script

=== cut_behind_35_bytes
cut: 35
--- told
at byte 16 of the script

=== cut_behind_36_bytes
cut: 36
--- told
at byte 16 of the script

=== cut_behind_37_bytes
cut: 37
--- told
at byte 16 of the script

=== cut_behind_38_bytes
cut: 38
--- told
at byte 16 of the script

=== cut_behind_39_bytes
cut: 39
--- told
at byte 16 of the script

=== cut_behind_40_bytes
cut: 40
--- told
at byte 16 of the script

=== cut_behind_41_bytes
cut: 41
--- told
at byte 16 of the script

=== cut_behind_42_bytes
cut: 42
--- told
at byte 16 of the script

=== cut_behind_43_bytes
cut: 43
--- told
at byte 16 of the script

=== cut_behind_44_bytes
cut: 44
--- told
at byte 16 of the script

=== cut_behind_45_bytes
cut: 45
--- told
at byte 16 of the script

=== cut_behind_46_bytes
cut: 46
--- told
at byte 16 of the script

=== cut_behind_47_bytes
cut: 47
--- told
at byte 16 of the script

=== cut_behind_48_bytes
cut: 48
--- told
at byte 16 of the script

=== cut_behind_49_bytes
cut: 49
--- told
at byte 16 of the script

=== cut_behind_50_bytes
cut: 50
--- told
at byte 16 of the script

=== cut_behind_51_bytes
cut: 51
--- told
at byte 16 of the script

=== cut_behind_52_bytes
cut: 52
--- told
at byte 16 of the script

=== cut_behind_53_bytes
cut: 53
--- told
at byte 16 of the script

=== cut_behind_54_bytes
cut: 54
--- told
at byte 16 of the script

=== cut_behind_55_bytes
cut: 55
--- told
at byte 16 of the script

=== cut_behind_56_bytes
cut: 56
--- told
at byte 16 of the script

=== cut_behind_57_bytes
cut: 57
--- told
at byte 16 of the script

=== cut_behind_58_bytes
cut: 58
--- told
at byte 16 of the script

=== cut_behind_59_bytes
cut: 59
--- told
at byte 16 of the script

=== cut_behind_60_bytes
cut: 60
--- told
at byte 16 of the script

=== cut_behind_61_bytes
cut: 61
--- told
at byte 16 of the script

=== cut_behind_62_bytes
cut: 62
--- told
at byte 16 of the script

=== cut_behind_63_bytes
cut: 63
--- told
at byte 16 of the script

=== cut_behind_64_bytes
cut: 64
--- told
at byte 16 of the script

=== cut_behind_65_bytes
cut: 65
--- told
at byte 16 of the script

=== cut_behind_66_bytes
cut: 66
--- told
at byte 16 of the script

=== cut_behind_67_bytes
cut: 67
--- told
at byte 16 of the script

=== cut_behind_68_bytes
cut: 68
--- told
at byte 16 of the script

=== cut_behind_69_bytes
cut: 69
--- told
at byte 16 of the script

=== cut_behind_70_bytes
cut: 70
--- told
at byte 16 of the script

=== cut_behind_71_bytes
cut: 71
--- told
at byte 16 of the script

=== cut_behind_72_bytes
cut: 72
--- told
at byte 16 of the script

=== cut_behind_73_bytes
cut: 73
--- told
at byte 16 of the script

=== cut_behind_74_bytes
cut: 74
--- told
at byte 16 of the script

=== cut_behind_75_bytes
cut: 75
--- told
at byte 16 of the script

=== cut_behind_76_bytes
cut: 76
--- told
at byte 16 of the script

=== cut_behind_77_bytes
cut: 77
--- told
at byte 16 of the script

=== cut_behind_78_bytes
cut: 78
--- told
at byte 16 of the script

=== cut_behind_79_bytes
cut: 79
--- told
at byte 16 of the script

=== cut_behind_80_bytes
cut: 80
--- told
at byte 16 of the script

=== cut_behind_81_bytes
cut: 81
--- told
at byte 16 of the script

=== cut_behind_82_bytes
cut: 82
--- told
at byte 16 of the script

=== cut_behind_83_bytes
cut: 83
--- told
at byte 16 of the script

=== cut_behind_84_bytes
cut: 84
--- told
at byte 16 of the script

=== cut_behind_85_bytes
cut: 85
--- told
at byte 16 of the script

=== cut_behind_86_bytes
cut: 86
--- told
at byte 16 of the script

=== cut_behind_87_bytes
cut: 87
--- told
at byte 16 of the script

=== cut_behind_88_bytes
cut: 88
--- told
at byte 16 of the script

=== cut_behind_89_bytes
cut: 89
--- told
at byte 16 of the script

=== cut_behind_90_bytes
cut: 90
--- told
at byte 16 of the script

=== cut_behind_91_bytes
cut: 91
--- told
at byte 16 of the script

=== cut_behind_92_bytes
cut: 92
--- told
at byte 16 of the script

=== cut_behind_93_bytes
cut: 93
--- told
at byte 16 of the script

=== cut_behind_94_bytes
cut: 94
--- told
at byte 16 of the script

=== cut_behind_95_bytes
cut: 95
--- told
at byte 16 of the script

=== cut_behind_96_bytes
cut: 96
--- told
at byte 16 of the script

=== cut_behind_97_bytes
cut: 97
--- told
at byte 16 of the script

=== cut_behind_98_bytes
cut: 98
--- told
at byte 16 of the script

=== cut_behind_99_bytes
cut: 99
--- told
at byte 16 of the script

=== cut_behind_100_bytes
cut: 100
--- told
at byte 16 of the script

=== cut_behind_101_bytes
cut: 101
--- told
at byte 16 of the script

=== cut_behind_102_bytes
cut: 102
--- told
at byte 16 of the script

=== cut_behind_103_bytes
cut: 103
--- told
at byte 16 of the script

=== cut_behind_104_bytes
cut: 104
--- told
at byte 16 of the script

=== cut_behind_105_bytes
cut: 105
--- told
at byte 16 of the script

=== cut_behind_106_bytes
cut: 106
--- told
at byte 16 of the script

=== cut_behind_107_bytes
cut: 107
--- told
at byte 16 of the script

=== cut_behind_108_bytes
cut: 108
--- told
at byte 16 of the script

=== cut_behind_109_bytes
cut: 109
--- told
at byte 16 of the script

=== cut_behind_110_bytes
cut: 110
--- told
at byte 16 of the script

=== cut_behind_111_bytes
cut: 111
--- told
at byte 16 of the script

=== cut_behind_112_bytes
cut: 112
--- told
at byte 16 of the script

=== cut_behind_113_bytes
cut: 113
--- told
at byte 16 of the script

=== cut_behind_114_bytes
cut: 114
--- told
at byte 16 of the script

=== cut_behind_115_bytes
cut: 115
--- told
at byte 16 of the script

=== cut_behind_116_bytes
cut: 116
--- told
at byte 16 of the script

=== cut_behind_117_bytes
cut: 117
--- told
at byte 16 of the script

=== cut_behind_118_bytes
cut: 118
--- told
at byte 16 of the script

=== cut_behind_119_bytes
cut: 119
--- told
at byte 16 of the script

=== cut_behind_120_bytes
cut: 120
--- told
at byte 16 of the script

=== cut_behind_121_bytes
cut: 121
--- told
at byte 16 of the script

=== cut_behind_122_bytes
cut: 122
--- told
at byte 16 of the script

=== cut_behind_123_bytes
cut: 123
--- told
at byte 16 of the script

=== cut_behind_124_bytes
cut: 124
--- told
at byte 16 of the script

=== cut_behind_125_bytes
cut: 125
--- told
at byte 16 of the script

=== cut_behind_126_bytes
cut: 126
--- told
at byte 16 of the script

=== cut_behind_127_bytes
cut: 127
--- told
at byte 16 of the script

=== cut_behind_128_bytes
cut: 128
--- told
at byte 16 of the script

=== cut_behind_129_bytes
cut: 129
--- told
at byte 129 of the script

=== cut_behind_130_bytes
cut: 130
--- told
at byte 129 of the script

=== cut_behind_131_bytes
cut: 131
--- told
at byte 129 of the script

=== cut_behind_132_bytes
cut: 132
--- told
at byte 129 of the script

=== cut_behind_133_bytes
cut: 133
--- told
at byte 129 of the script

=== cut_behind_134_bytes
cut: 134
--- told
at byte 129 of the script

=== cut_behind_135_bytes
cut: 135
--- told
at byte 135 of the script

=== cut_behind_136_bytes
cut: 136
--- told
at byte 135 of the script

=== cut_behind_137_bytes
cut: 137
--- told
at byte 135 of the script

=== cut_behind_138_bytes
cut: 138
--- told
at byte 135 of the script

=== cut_behind_139_bytes
cut: 139
--- told
at byte 135 of the script

=== cut_behind_140_bytes
cut: 140
--- told
at byte 135 of the script

=== cut_behind_141_bytes
cut: 141
--- told
at byte 135 of the script

=== cut_behind_142_bytes
cut: 142
--- told
at byte 135 of the script

=== cut_behind_143_bytes
cut: 143
--- told
at byte 135 of the script

=== cut_behind_144_bytes
cut: 144
--- told
at byte 135 of the script

=== cut_behind_145_bytes
cut: 145
--- told
at byte 145 of the script
--- written
to 1: "Hello\n"

=== cut_behind_146_bytes
cut: 146
--- told
at byte 145 of the script
--- written
to 1: "Hello\n"

=== cut_behind_147_bytes
cut: 147
--- told
at byte 145 of the script
--- written
to 1: "Hello\n"

=== cut_behind_148_bytes
cut: 148
--- told
at byte 145 of the script
--- written
to 1: "Hello\n"

=== cut_behind_149_bytes
cut: 149
--- told
at byte 145 of the script
--- written
to 1: "Hello\n"

=== cut_behind_150_bytes
cut: 150
--- told
at byte 145 of the script
--- written
to 1: "Hello\n"

=== cut_behind_151_bytes
cut: 151
--- told
at byte 145 of the script
--- written
to 1: "Hello\n"

=== cut_behind_152_bytes
cut: 152
--- told
at byte 145 of the script
--- written
to 1: "Hello\n"

=== cut_behind_153_bytes
cut: 153
--- told
at byte 145 of the script
--- written
to 1: "Hello\n"

=== cut_behind_154_bytes
cut: 154
--- told
at byte 145 of the script
--- written
to 1: "Hello\n"

=== cut_behind_155_bytes
cut: 155
--- told
at byte 145 of the script
--- written
to 1: "Hello\n"

=== cut_behind_156_bytes
cut: 156
--- told
at byte 156 of the script
--- written
to 1: "Hello\n"
to 1: "What?\n"

=== cut_behind_157_bytes
cut: 157
--- told
at byte 156 of the script
--- written
to 1: "Hello\n"
to 1: "What?\n"

=== cut_behind_158_bytes
cut: 158
--- told
at byte 156 of the script
--- written
to 1: "Hello\n"
to 1: "What?\n"

=== cut_behind_159_bytes
cut: 159
--- told
at byte 156 of the script
--- written
to 1: "Hello\n"
to 1: "What?\n"
