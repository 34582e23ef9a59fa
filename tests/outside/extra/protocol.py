"""The making of the buffers and the digest once more, from PROTOCOL.md alone: checks that page and
the stored files against each other for every buffer that a call leaves as it was, for runs, steps, passes,
sums and differences built and run every number, for runs and steps the memory if none is stored, the registers if
M, X and Y stay, and for the searches, for closing and spreading, for reading and writing of blocks, for pictures
made new or old, for isolation and for lists as text every word of the answer.

    python3 extra/protocol.py ../../crates/vectors/stdin ../../crates/vectors/stdout
"""
import re,sys
def nxt(x):
    x^=(x<<13)&0xffffffff; x^=x>>17; x^=(x<<5)&0xffffffff; return x
def digest(b):
    d1=d2=1
    for v in b:
        d1=(d1*251+v)%65521; d2=(d2*263+v)%65519
    return d1*65536+d2
def seal(f,n):
    at=512*n;s1=s2=0
    for i in range(508):
        s1=(s1+f[at+i])%65535; s2=(s2+(508-i)*f[at+i])%65535
    f[at+508:at+512]=bytes([s1%256,s1//256,s2%256,s2//256])
def make(r):
    le=lambda at,n:int.from_bytes(r[at:at+n],'little')
    kind,shape,nb,pp,np=r[0],r[1],r[2],r[3],r[8]
    x=le(4,4);L=[le(9+3*k,2) for k in range(nb)];zeros=[r[11+3*k] for k in range(nb)]
    p=[le(9+3*nb+4*k,4) for k in range(pp)];p+=[0]*(4-pp)
    B=[]
    for k in range(nb):
        b=bytearray()
        for _ in range(L[k]):
            if zeros[k]: b.append(0)
            else: x=nxt(x); b.append(x%256)
        B.append(b)
    if shape:
        l=B[2]
        for i in range(len(l)//8):
            r_=l[8*i:8*i+8]
            b0=r_[0]%6 if shape==1 else r_[0]%7 if shape==3 else (r_[0]%4 if r_[2]<248 else 4+r_[0]%2)
            if b0==6:
                l[8*i:8*i+8]=bytes([6,0,2+r_[2]%2,r_[3],0,0,0,0]); continue
            b1=r_[1]%5 if b0 in(0,1,4) else 1+r_[1]%4 if b0 in(2,3) else 0
            t=b0 in(2,3) or (b0 in(0,1,4) and b1==0)
            tag=1+r_[2]%3 if shape==3 else 1
            b234=[tag,r_[3] if tag==1 else 0,r_[4]] if t else [0,0,0]
            b5=0 if b0==5 else r_[5]
            q=r_[6]%9
            b6=(0 if q==0 else 16*q+(r_[6]//16)%q) if b0 in(0,1,4) else 0
            b7=16*((r_[7]//16)%5)+r_[7]%16 if b0==0 else 0
            l[8*i:8*i+8]=bytes([b0,b1,*b234,b5,b6,b7])
    if kind in(6,7,17,19,20) and p[3]==1:
        f=B[5];c=len(f)//512
        for n in range(c):
            at=512*n;used=496 if n<c-1 else p[2]
            f[at:at+12]=bytes([p[1]%256,p[1]//256,n%256,n//256,c%256,c//256,used%256,used//256,0,0,0,0])
            for i in range(496):
                if i>=used:f[at+12+i]=0
            seal(f,n)
    at=9+3*nb+4*pp
    for _ in range(np):
        t,o,n=r[at],le(at+1,2),r[at+3]
        if t==255: assert n==0; seal(B[5],o)
        elif t==254:
            assert n==0 and 32<=o<=8192
            for i in range(o,len(B[0])):B[0][i]=B[0][i-o]
        elif t==253:
            assert n==0 and 1<=o<=35000
            for i in range(o,len(B[5])):B[5][i]=B[5][i-o]
        else:
            assert o+n<=len(B[t]); B[t][o:o+n]=r[at+4:at+4+n]
        at+=4+n
    assert at==len(r)
    return kind,p,B
def fault(b,unset):
    """Number and byte from the page's part on the offending byte; None if the instruction stands. The tags of the mode
    registers that are unset here are given."""
    kind,source,tag=b[:3];store=kind in(2,3)
    touches=store or kind in(0,1,4) and source==0
    zero=lambda bytes_:[k for k in bytes_ if b[k]]
    p,m=divmod(b[6],16)
    table=[(5,[0]*(kind>6)),
           (6,[1]*(source>4 or store and source==0 or kind in(5,6) and source>0)),
           (7,[2]*((touches or kind==6) and tag==0)),
           (8,[2]*((touches or kind==6) and tag>3 or kind==6 and tag==1)),
           (9,zero((4,) if kind==6 else (2,3,4) if not touches else (3,) if tag in(2,3) else ())),
           (14,[2]*(touches and tag in unset)),
           (18,zero((6,) if store else (5,6) if kind in(5,6) else ())),
           (16,[6]*(p>8)),
           (17,[6]*(b[6]>0 and m>=p)),
           (11,[7]*(b[7]//16>4 if kind==0 else b[7]>0))]
    return next(((number,wrong[0]) for number,wrong in table if wrong),None)
def lent(B,step=0,built=0):
    """1 to 4 and 15: what a run or step of these lengths and mode registers is refused with, else 0."""
    mem,reg,lst,itm=B[:4]
    if len(mem)!=8192: return 1
    if len(reg)!=100: return 2
    if not built and (len(lst)!=8 if step else len(lst)%8 or len(lst)>32768): return 3
    if len(itm)%32 or len(itm)>32768: return 4
    return 15 if any(reg[k]>1 or reg[k]==0<reg[k+1] for k in(96,98)) else 0
def run(kind,B):
    """Kinds 0 and 1: the six numbers. Where the run is done the mode registers are changed in B."""
    mem,reg,lst,itm,out=B[:5]
    if kind and len(reg)!=100: return 6*[0]
    bad=lent(B,step=kind)
    if bad: return [bad,0,0,0,0,0]
    code=[lst[k:k+8] for k in range(0,len(lst),8)]
    modes={2:list(reg[96:98]),3:list(reg[98:100])}
    for place,b in enumerate(code):
        wrong=fault(b,[tag for tag in modes if modes[tag][0]==0])
        if wrong: return [wrong[0],place,wrong[1],0,0,0]
        if b[0]==6: modes[b[2]]=[1,b[3]]
    takes=[place for place,b in enumerate(code) if b[1]==4]
    gives=[place for place,b in enumerate(code) if b[0] in(4,5)]
    for number,places,there in((12,takes,len(itm)//32),(13,gives,len(out)//32)):
        if len(places)>there: return [number,places[there],0,0,0,0]
    reg[96:]=bytes(modes[2]+modes[3])
    return [0,0,0,len(code),len(takes),len(gives)]
def built(kind,p,B):
    """Kinds 10 and 11: the six numbers."""
    a,b,s,n=p;steps=kind-9+5*n
    meets=lambda f:abs(s-f)<n and s!=f
    no=30 if not 1<=n<=64 else 31 if max(a,b,s)+n>256 else 32 if meets(a) or meets(b) else 33 if len(B[2])<8*steps else 0
    bad=no or lent(B,built=1)
    return [bad,0,0,0,0,0] if bad else [0,0,0,steps,0,0]
def numbers(kind,p,B):
    """The numbers of the answer of kinds 0 to 3, 10 and 11; of the others how many there are."""
    if kind<2: return run(kind,B)
    if kind<4: return [(fault([0,1,0,0,0,0,p[1],0],()) or [0])[0],0,0,0,0]
    return built(kind,p,B) if kind>9 else 5*[None] # 4 and 5
def search(kind,p,B):
    """Kinds 12 to 14 from the page's part on searches: all words of the answer."""
    mem,reg,lst,itm=B[:4];start,n,number=p[0],p[1],p[2]+(p[3]<<32)
    steps,taken=(1+11*n,0) if kind==14 else (2+3*n,n)
    no=30 if not 1<=n<=64 else 31 if start+n>256 else 34 if kind<14 and number>=2**n else 33 if len(lst)<8*steps or len(itm)<32*taken else 0
    if no: return [no]+8*[0]+[digest(b) for b in B]
    for k in range(taken):itm[32*k:32*k+32]=bytes([255*(number>>k&1)])*32
    bad=lent(B,built=1)
    if not bad:
        v=[sum((mem[32*(b^w)+b//8]>>b%8&1)<<b-start for b in range(start,start+n)) for w in range(256)]
        was=[w for w in range(256) if reg[64+w//8]>>w%8&1]
        top=max([v[w] for w in was],default=0)
        y=sum(1<<w for w in range(256) if (v[w]==number if kind==12 else v[w]<number if kind==13 else w in was and v[w]==top)).to_bytes(32,'little')
        reg[32:96]=(bytes(32) if kind==14 else y)+y
    return [0,8*steps,32*taken]+([bad,0,0,0,0,0] if bad else [0,0,0,steps,taken,0])+[digest(b[8*steps:] if k==2 else b) for k,b in enumerate(B)]
def closing(kind,p,B):
    """Kinds 15 and 16 from the page's part on closing and spreading: all words of the answer."""
    mem,reg,lst,itm,_,marks=B;a,s,n=p[:3]
    steps,taken=(10+19*n,9) if kind==15 else (1+18*n,1+8*n)
    common=max(a,s)<min(a,s)+n
    no=35 if len(marks)!=32 else 30 if not 1<=n<=32 else 31 if max(a,s)+n>256 else 32 if common else 33 if len(lst)<8*steps or len(itm)<32*taken else 0
    if no: return [no]+8*[0]+[digest(b) for b in B]
    bad=lent(B,built=1)
    if not bad:
        # slice by slice, as numbers of 256 bits: bit w is that of word w
        get=lambda b:sum((mem[32*(b^w)+b//8]>>b%8&1)<<w for w in range(256))
        def put(b,slice):
            for w in range(256):
                at=32*(b^w)+b//8
                mem[at]=mem[at]&~(1<<b%8)|(slice>>w&1)<<b%8
        number=int.from_bytes(marks,'little')
        for b in range(n):
            old,from_,new,k=get(a+b),get(s+b),0,0
            for w in range(256):
                if number>>w&1:
                    if kind==15: new|=(old>>w&1)<<k
                    else: new|=(from_>>k&1)<<w
                    k+=1
            if kind==15: put(s+b,new)
            else: put(a+b,old&~number|new)
    left=[mem,reg if bad else reg[96:],lst[8*steps:],itm[32*taken:],B[4],marks]
    return [0,8*steps,32*taken]+([bad,0,0,0,0,0] if bad else [0,0,0,steps,taken,0])+[digest(b) for b in left]
def turned(words):
    """The chips of the words, or the words of the chips: bit b of word w is bit b of chip b xor w."""
    other=bytearray(8192)
    for w in range(256):
        for byte in range(32):
            other[32*w+byte]=sum(words[32*(8*byte+i^w)+byte]&1<<i for i in range(8))
    return bytes(other)
def judged(kind,f):
    """Number and place of a file that is read as this kind, and its content."""
    if not f or len(f)%512 or len(f)>34304: return 20,0,b''
    count=len(f)//512;content=b''
    two=lambda b,at:b[at]+256*b[at+1]
    for n in range(count):
        b=f[512*n:512*n+512];right=bytearray(b);seal(right,0);used=two(b,6)
        if right!=b: return 21,n,b''
        if two(b,0)!=kind: return 22,n,b''
        if (two(b,2),two(b,4))!=(n,count): return 23,n,b''
        if not(used==496 if n<count-1 else used<=496 and (used>0 or count==1)) or any(b[8:12]) or any(b[12+used:508]): return 24,n,b''
        content+=b[12:12+used]
    size=len(content)
    fits={1:size==8288,2:size%8==0 and size<=32768,3:size%32==0 and size<=32768,4:size==8292}[kind]
    return (0 if fits else 25),0,content
def blocks(kind,content):
    count=-(-len(content)//496) or 1;f=bytearray()
    for n in range(count):
        part=content[496*n:496*n+496];used=len(part)
        f+=bytes([kind,0,n,0,count,0,used%256,used//256,0,0,0,0])+part+bytes(500-used);seal(f,n)
    return f
def on_disk(kind,p,B):
    """Kinds 6 to 9 and 17 to 20 from the page's part on pictures and document 01's on blocks: all words of the answer."""
    mem,reg,lst,_,_,f=B
    asked=1 if kind in(7,9,19) else 4 if kind==20 else p[0]
    reads,plain=kind in(6,7,17,19,20),kind in(6,8)
    bad=lambda four:any(four[k]>1 or four[k]==0<four[k+1] for k in(0,2))
    no,place,content=0,0,b''
    if not 1<=asked<=4: no=22
    elif reads: no,place,content=judged(asked,f)
    else:
        size=len(lst)
        if plain: no=0 if asked==2 and size%8==0 and size<=32768 or asked==3 and size%32==0 and size<=32768 else 26
    if not no and kind in(7,9,17,18) and (asked not in(1,4) or len(mem)!=8192 or len(reg)!=(96 if asked==1 else 100)): no=26
    if not no and kind==6 and (asked in(1,4) or len(lst)<len(content)): no=26
    if not no and asked==4 and kind!=6:
        four=content[8288:] if reads else reg[96:]
        no=15 if bad(four) else 28 if kind==20 and 1 in(four[0],four[2]) else 0
    given=0
    if not no and not(reads and kind<18):
        if kind==8: new=blocks(asked,bytes(lst))
        elif kind in(9,18): new=blocks(asked,turned(mem)+bytes(reg))
        else: new=blocks(5-asked,content[:8288]+bytes(4 if kind==19 else 0))
        out=lst if kind>18 else f;given=len(new)
        if len(out)<given: no,given=27,0
        else: out[:given]=new
    elif not no:
        given=len(content)
        if kind==6: lst[:given]=content
        else: mem[:]=turned(content[:8192]);reg[:]=content[8192:]
    return [no,place if no else 0,given,0,0]+[digest(b) for b in B]
def isolated(kind,p,B):
    """Kind 21 from the page's part on isolation: all words of the answer."""
    reg,lst=B[1:3];no=place=0
    assert not any(p) and not any(map(len,B[:1]+B[3:]))
    if len(reg)!=100: no=2
    elif len(lst)%8 or len(lst)>32768: no=3
    elif any(reg[k]>1 or reg[k]==0<reg[k+1] for k in(96,98)): no=15
    else:
        # the tags by which an access has mode 0, byte 3 aside
        zero={tag for tag,k in((2,96),(3,98)) if reg[k:k+2]==b'\1\0'}
        for at in range(0,len(lst),8):
            b=lst[at:at+8];sort,source,tag=b[:3]
            access=sort in(2,3) or sort in(0,1) and source==0
            if sort not in(0,1,2,3,6) or b[5] or b[6] or access and not(tag in zero or tag==1 and b[3]==0):
                no,place=40,at//8
                break
            if sort==6 and tag in(2,3): zero=zero-{tag} if b[3] else zero|{tag}
    return [no,place,0,0,0]+[digest(b) for b in B]
CHOICES='x y both x-if-y x-if-y+y'.split()
FUNCTIONS='zero nor 2 not clear loadnot xor nand and xnor load 11 keep ornot or one'.split()
SOURCES='m x y outside'.split()
KINDS='logic setm store mstore deliver resolve set bytes'.split()
decimal=lambda w:int(w) if re.fullmatch('[0-9]{1,3}',w) and int(w)<256 else None
power=lambda w,most:w.isdigit() and w[0]!='0' and int(w)<=most and int(w)&int(w)-1==0
def word(at,w,b):
    """The page's table: what the word w at this place puts into b, and the next place; or the number of the refusal."""
    n=decimal(w);store=b[0] in(2,3)
    if at=='first':
        if w not in KINDS: return 60
        b[0]=KINDS.index(w)%7
        return {'logic':'choice','resolve':'end','set':'set','bytes':0}.get(w,'place' if w in('store','mstore') else 'source')
    if at=='choice':
        if w not in CHOICES: return 61
        b[7]=16*CHOICES.index(w)
        return 'function'
    if at=='function':
        if w not in FUNCTIONS and (n is None or n>15): return 62
        b[7]+=FUNCTIONS.index(w) if w in FUNCTIONS else n
        return 'source'
    if at=='source' and w in SOURCES or at=='register':
        if w not in SOURCES: return 63
        b[1]=1+SOURCES.index(w)
        return 'held' if store else 'moves'
    if at in('source','place'):
        if w not in('slice','word','mode'): return 63
        if w=='mode': return 'mode'
        b[2:4]=[1,255*(w=='word')]
        return 'number'
    if at=='set':
        if w not in('a','b'): return 63
        b[2]=2+(w=='b')
        return 'setting'
    if at in('number','flip','setting','mode') and n is None and not(at=='mode' and w in('a','b')): return 64
    if at=='number': b[4]=n;return 'from' if store else 'moves'
    if at=='flip': b[5]=n;return 'end' if store else 'flipped'
    if at=='setting': b[3]=n;return 'end'
    if at=='mode': b[2:4]=[2+(w=='b'),0] if n is None else [1,n];return 'address'
    if at in('address','from','mod'): return {'address':'number','from':'register','mod':'size'}[at] if w==at else 65
    if at=='shift':
        if not power(w,128): return 66
        b[6]=int(w).bit_length()-1
        return 'mod'
    if at=='size':
        if not power(w,256) or int(w)<=1<<b[6]: return 66
        b[6]+=16*(int(w).bit_length()-1)
        return 'end'
    if type(at) is int:
        if not re.fullmatch('[0-9A-Fa-f]{2}',w): return 68
        b[at]=int(w,16)
        return at+1 if at<7 else 'end'
    if w=='flip' and at in('moves','held') or w=='shift' and at in('moves','flipped'): return w
    return 67
def made(text,out):
    """Make: number, line, column and count."""
    lst=b''
    for n,line in enumerate(bytes(text).split(b'\n'),1):
        code=line.split(b';')[0];at='first';b=bytearray(8)
        for found in re.finditer(rb'[^ \t\r]+',code):
            w=found.group()
            w=w.decode('ascii') if re.fullmatch(rb'[!-~]{1,8}',w) else ''
            at=word(at,w,b)
            if type(at) is int and at>9: return [at,n,found.start()+1,0]
        if at=='first': continue
        if at not in('moves','flipped','held','end'): return [69,n,len(code)+1,0]
        lst+=b
    if len(lst)>32768: return [3,0,0,0]
    if len(lst)>len(out): return [33,0,0,0]
    out[:len(lst)]=lst
    return [0,0,0,len(lst)]
def held_at(lst,held):
    """Each instruction, and what A and B hold there by their tags."""
    held=dict(held)
    for at in range(0,len(lst),8):
        b=lst[at:at+8]
        yield b,dict(held)
        if b[0]==6 and b[2] in(2,3): held[b[2]]=b[3]
words_of=lambda mode:2**bin(255-mode).count('1')
def shown(lst,out):
    """Show: number and count."""
    if len(lst)%8 or len(lst)>32768: return [3,0]
    text=''
    for b,held in held_at(lst,{}):
        wrong=fault(b,())
        if wrong: text+='bytes %s ; refused %d byte %d\n'%(' '.join('%02X'%v for v in b),*wrong);continue
        place='slice %d'%b[4] if (b[2],b[3])==(1,0) else 'word %d'%b[4] if (b[2],b[3])==(1,255) else 'mode %s address %d'%({2:'a',3:'b'}.get(b[2],b[3]),b[4])
        source=SOURCES[b[1]-1] if b[1] else place
        moves=(' flip %d'%b[5] if b[5] else '')+(' shift %d mod %d'%(2**(b[6]%16),2**(b[6]//16)) if b[6] else '')
        k=b[0]
        if k==0: text+='logic %s %s '%(CHOICES[b[7]//16],FUNCTIONS[b[7]%16])+source+moves
        elif k in(1,4): text+=KINDS[k]+' '+source+moves
        elif k==5: text+='resolve'
        elif k==6: text+='set %s %d'%('ab'[b[2]-2],b[3])
        else:
            count=words_of(b[3]) if b[2]==1 else words_of(held[b[2]]) if b[2] in held else '?'
            text+='%s %s from %s%s ; reaches %s word%s'%(KINDS[k],place,source,moves,count,'' if count==1 else 's')
        text+='\n'
    if len(text)>len(out): return [27,0]
    out[:len(text)]=text.encode()
    return [0,len(text)]
def reached(reg,lst,out):
    """Reach: number and count."""
    if len(reg)!=100: return [2,0]
    if len(lst)%8 or len(lst)>32768: return [3,0]
    if any(reg[k]>1 or reg[k]==0<reg[k+1] for k in(96,98)): return [15,0]
    counts=b''
    for b,held in held_at(lst,{tag:reg[k+1] for tag,k in((2,96),(3,98)) if reg[k]}):
        count=0
        if b[0] in(2,3) and not fault(b,[tag for tag in(2,3) if tag not in held]): count=words_of(held.get(b[2],b[3]))
        counts+=count.to_bytes(2,'little')
    if len(counts)>len(out): return [27,0]
    out[:len(counts)]=counts
    return [0,len(counts)]
FORMS={b'field':'name start width',b'sum':'A B into S',b'difference':'A B into S',b'equal':'A value',b'less':'A value',b'greatest':'A',b'reach':'at most count word'}
def statement(at,w,said,fields):
    """The page's table of statements: the number of the refusal of the word w at this place, or 0, and then what it says."""
    n=lambda most:int(w) if re.fullmatch(rb'[0-9]{1,%d}'%most,w) else None
    if at=='name':
        if not re.fullmatch(rb'[!-~]{1,8}',w): return 70
        if w in fields: return 71
        if len(fields)==256: return 72
    elif at in('into','at','most','word'):
        if w!=at.encode() and not(at=='word' and w==b'words'): return 65
    elif at in('A','B','S'):
        if w not in fields: return 73
        start,width=fields[w]
        if at!='A' and width!=said['A'][1]: return 74
        if at=='S' and any(start!=other and range(max(start,other),min(start,other)+width) for other in(said['A'][0],said['B'][0])): return 32
        said[at]=fields[w];return 0
    else:
        v=n(20 if at=='value' else 3)
        if at=='value' and (v is None or v>>64): return 76
        if at=='value' and v>>said['A'][1]: return 34
        if at=='start' and (v is None or v>255) or at=='count' and (v is None or not 1<=v<=256): return 64
        if at=='width' and (v is None or not 1<=v<=64): return 30
        if at=='width' and said['start']+v>256: return 31
        w=v
    said[at]=w
    return 0
def listed(name,said):
    """The bytes of docs/LISTS.md."""
    x=lambda logic,flip=0:bytes([0,2,0,0,0,flip,0,logic])
    read=lambda slice,logic:bytes([0,0,1,0,slice,0,0,logic])
    a,n=said['A']
    if name==b'greatest':
        return x(0)+b''.join(read(a+k,0x3a)+b''.join(x(0x0e,1<<f) for f in range(8))+read(a+k,4)+x(0x24) for k in reversed(range(n)))
    if name in(b'equal',b'less'):
        less=name==b'less'
        return x(0 if less else 0x0f)+b''.join(bytes([0,4,0,0,0,0,0,0x1a])+read(a+k,0x16)+(read(a+k,0x35) if less else x(0x30)) for k in range(n))+x(0x1a)
    minus=name==b'difference';b,s=said['B'][0],said['S'][0]
    return x(0x20)+minus*x(0x1f)+b''.join(read(a+k,0x46)+read(b+k,0x49 if minus else 0x46)+bytes([2,3,1,0,s+k,0,0,0])+x(0x33)+x(0x26) for k in range(n))
def assembled(text,out,brought):
    """Assemble: number, line, column and the two counts."""
    fields,limit,held,takes,lst,items={},None,{},False,bytearray(),bytearray()
    for n,line in enumerate(bytes(text).split(b'\n'),1):
        code=line.split(b';')[0];ws=[(found.start()+1,found.group()) for found in re.finditer(rb'[^ \t\r]+',code)]
        if not ws: continue
        first,name=ws[0]
        if name not in FORMS:
            b=bytearray(8);wrong=made(line,b)
            if wrong[0]: return [wrong[0],n,wrong[2],0,0]
            mode=held.get(b[2]) if b[2] in(2,3) else b[3]
            if limit and b[0] in(2,3) and (mode is None or words_of(mode)>limit): return [75,n,first,0,0]
            if b[0]==6 and b[2] in(2,3): held[b[2]]=b[3]
            takes|=b[1]==4;lst+=b
            continue
        said,places={},FORMS[name].split()
        for k,at in enumerate(places,1):
            if k==len(ws): return [69,n,len(code)+1,0,0]
            no=statement(at,ws[k][1],said,fields)
            if no: return [no,n,ws[k][0],0,0]
        if len(ws)>len(places)+1: return [67,n,ws[len(places)+1][0],0,0]
        if name==b'field': fields[said['name']]=said['start'],said['width'];continue
        if name==b'reach': limit=said['count'];continue
        if limit and limit<256 and 'S' in said: return [75,n,first,0,0]
        if takes and 'value' in said: return [77,n,first,0,0]
        lst+=listed(name,said)
        if 'value' in said: items+=b''.join(bytes([255*(said['value']>>k&1)]*32) for k in range(said['A'][1]))
    if len(lst)>32768: return [3,0,0,0,0]
    if len(items)>32768: return [4,0,0,0,0]
    if len(lst)>len(out) or len(items)>len(brought): return [33,0,0,0,0]
    out[:len(lst)]=lst;brought[:len(items)]=items
    return [0,0,0,len(lst),len(items)]
def as_text(kind,p,B):
    """Kinds 22 to 25 from the page's part on lists as text: all words of the answer."""
    assert not any(p) and not any(len(B[k]) for k in((0,3,5) if kind==24 else (0,1,4) if kind==25 else (0,1,3,4)))
    said=shown(B[2],B[5]) if kind==22 else made(B[5],B[2]) if kind==23 else reached(B[1],B[2],B[4]) if kind==24 else assembled(B[5],B[2],B[3])
    return said+(5-len(said))*[0]+[digest(b) for b in B]
kept={0:[2,3,5],1:[2,3,5],2:[0,1,2,3,5],3:[0,1,2,3,5],4:[0,1,3,4,5],5:[0,1,3,4,5],10:[3,5],11:[3,5]}
lines=open(sys.argv[1]).read().split('\n');ans=open(sys.argv[2]).read().split('\n')
assert lines[-1]=='' and ans[-1]=='' and len(lines)==len(ans)
checked=0
for k in range(0,len(lines)-1):
    kind,p,B=make(bytes.fromhex(lines[k]))
    w=[int(v,16) for v in ans[k].split(' ')];assert len(ans[k])==9*len(w)-1 and len(w)>=5+len(B)
    if kind>=12 or 6<=kind<=9:
        whole=as_text if kind>21 else isolated if kind==21 else on_disk if kind<10 or kind>16 else search if kind<15 else closing
        assert w==whole(kind,p,B),k; checked+=len(B); continue
    expected=numbers(kind,p,B);assert len(w)==len(expected)+len(B),k
    if expected[0] is not None: assert w[:len(expected)]==expected,(k,expected)
    keep=kept[kind] if w[0]==0 else range(len(B))
    if kind<2 and w[0]==0:
        kinds=set(B[2][::8])
        # what no instruction of the list can change, but for the mode registers
        keep=keep+[0]*(not kinds&{2,3})+[1]*(not kinds&{0,1})+[4]*(not kinds&{4,5})
    for b in keep:
        if kind in (2,3) and b==4: continue
        if kind in (10,11) and w[0]<30 and b==2: continue
        assert w[len(w)-len(B)+b]==digest(B[b]),(k,b); checked+=1
print(len(lines)-1,'cases',checked,'digests agree')
