{module, search}.  %% version = 0

{exports, [{days,2},
           {found,2},
           {gcd,2},
           {inserted,3},
           {kind,1},
           {module_info,0},
           {module_info,1},
           {root,1},
           {to_list,1},
           {word,1}]}.

{attributes, []}.

{labels, 48}.


{function, inserted, 3, 2}.
  {label,1}.
    {line,[{location,"search.erl",6}]}.
    {func_info,{atom,search},{atom,inserted},3}.
  {label,2}.
    {test,is_tuple,{f,5},[{x,2}]}.
    {test,test_arity,{f,1},[{x,2},4]}.
    {get_tuple_element,{x,2},0,{x,3}}.
    {get_tuple_element,{x,2},1,{x,4}}.
    {get_tuple_element,{x,2},2,{x,5}}.
    {get_tuple_element,{x,2},3,{x,2}}.
    {test,is_lt,{f,3},[{x,0},{x,4}]}.
    {allocate,3,6}.
    {move,{x,4},{y,0}}.
    {move,{x,5},{y,1}}.
    {move,{x,2},{y,2}}.
    {move,{x,3},{x,2}}.
    {line,[{location,"search.erl",8}]}.
    {call,3,{f,2}}.
    {'%',{var_info,{x,0},[{type,{t_tuple,4,true,#{}}}]}}.
    {test_heap,5,1}.
    {put_tuple2,{x,0},{list,[{x,0},{y,0},{y,1},{y,2}]}}.
    {deallocate,3}.
    return.
  {label,3}.
    {test,is_lt,{f,4},[{x,4},{x,0}]}.
    {allocate,3,6}.
    {move,{x,3},{y,0}}.
    {move,{x,4},{y,1}}.
    {move,{x,5},{y,2}}.
    {line,[{location,"search.erl",9}]}.
    {call,3,{f,2}}.
    {'%',{var_info,{x,0},[{type,{t_tuple,4,true,#{}}}]}}.
    {test_heap,5,1}.
    {put_tuple2,{x,0},{list,[{y,0},{y,1},{y,2},{x,0}]}}.
    {deallocate,3}.
    return.
  {label,4}.
    {test_heap,5,4}.
    {put_tuple2,{x,0},{list,[{x,3},{x,0},{x,1},{x,2}]}}.
    return.
  {label,5}.
    {test,is_eq_exact,{f,1},[{x,2},{atom,leaf}]}.
    {test_heap,5,2}.
    {put_tuple2,{x,0},{list,[{atom,leaf},{x,0},{x,1},{atom,leaf}]}}.
    return.


{function, found, 2, 7}.
  {label,6}.
    {line,[{location,"search.erl",15}]}.
    {func_info,{atom,search},{atom,found},2}.
  {label,7}.
    {test,is_tuple,{f,10},[{x,1}]}.
    {test,test_arity,{f,6},[{x,1},4]}.
    {get_tuple_element,{x,1},1,{x,2}}.
    {test,is_lt,{f,8},[{x,0},{x,2}]}.
    {get_tuple_element,{x,1},0,{x,1}}.
    {call_only,2,{f,7}}.
  {label,8}.
    {test,is_eq,{f,9},[{x,0},{x,2}]}.
    {test_heap,3,2}.
    {get_tuple_element,{x,1},2,{x,0}}.
    {put_tuple2,{x,0},{list,[{atom,value},{x,0}]}}.
    return.
  {label,9}.
    {get_tuple_element,{x,1},3,{x,1}}.
    {call_only,2,{f,7}}.
  {label,10}.
    {test,is_eq_exact,{f,6},[{x,1},{atom,leaf}]}.
    {move,{atom,none},{x,0}}.
    return.


{function, to_list, 1, 12}.
  {label,11}.
    {line,[{location,"search.erl",24}]}.
    {func_info,{atom,search},{atom,to_list},1}.
  {label,12}.
    {test,is_tuple,{f,13},[{x,0}]}.
    {test,test_arity,{f,11},[{x,0},4]}.
    {allocate_zero,2,1}.
    {move,{x,0},{y,1}}.
    {get_tuple_element,{x,0},0,{x,0}}.
    {line,[{location,"search.erl",25}]}.
    {call,1,{f,12}}.
    {get_tuple_element,{y,1},3,{x,1}}.
    {move,{x,0},{y,0}}.
    {move,{x,1},{x,0}}.
    {line,[{location,"search.erl",25}]}.
    {call,1,{f,12}}.
    {test_heap,5,1}.
    {get_tuple_element,{y,1},1,{x,1}}.
    {get_tuple_element,{y,1},2,{x,2}}.
    {put_tuple2,{x,1},{list,[{x,1},{x,2}]}}.
    {put_list,{x,1},{x,0},{x,1}}.
    {move,{y,0},{x,0}}.
    {line,[{location,"search.erl",25}]}.
    {call_ext_last,2,{extfunc,lists_again,append,2},2}.
  {label,13}.
    {test,is_eq_exact,{f,11},[{x,0},{atom,leaf}]}.
    {move,nil,{x,0}}.
    return.


{function, root, 1, 15}.
  {label,14}.
    {line,[{location,"search.erl",30}]}.
    {func_info,{atom,search},{atom,root},1}.
  {label,15}.
    {test,is_integer,{f,14},[{x,0}]}.
    {test,is_ge,{f,14},[{x,0},{integer,0}]}.
    {allocate,1,1}.
    {move,{x,0},{y,0}}.
    {move,{integer,11585},{x,1}}.
    {call_ext,2,{extfunc,erlang,min,2}}.
    {line,[{location,"search.erl",31}]}.
    {gc_bif,'+',{f,0},1,[{x,0},{integer,1}],{x,2}}.
    {move,{integer,0},{x,1}}.
    {move,{y,0},{x,0}}.
    {call_last,3,{f,17},1}.


{function, root, 3, 17}.
  {label,16}.
    {line,[{location,"search.erl",33}]}.
    {func_info,{atom,search},{atom,root},3}.
  {label,17}.
    {'%',{var_info,{x,0},[{type,{t_integer,any}}]}}.
    {'%',{var_info,{x,1},[{type,{t_integer,any}}]}}.
    {'%',{var_info,{x,2},[{type,number}]}}.
    {gc_bif,'-',{f,18},3,[{x,2},{x,1}],{x,3}}.
    {test,is_ge,{f,18},[{integer,1},{x,3}]}.
    {move,{x,1},{x,0}}.
    return.
  {label,18}.
    {line,[{location,"search.erl",36}]}.
    {gc_bif,'+',{f,0},3,[{x,1},{x,2}],{x,3}}.
    {line,[{location,"search.erl",36}]}.
    {gc_bif,'bsr',{f,0},4,[{x,3},{integer,1}],{x,3}}.
    {line,[{location,"search.erl",37}]}.
    {gc_bif,'*',{f,0},4,[{x,3},{x,3}],{x,4}}.
    {test,is_ge,{f,19},[{x,0},{x,4}]}.
    {move,{x,3},{x,1}}.
    {call_only,3,{f,17}}.
  {label,19}.
    {move,{x,3},{x,2}}.
    {call_only,3,{f,17}}.


{function, gcd, 2, 21}.
  {label,20}.
    {line,[{location,"search.erl",42}]}.
    {func_info,{atom,search},{atom,gcd},2}.
  {label,21}.
    {test,is_eq_exact,{f,22},[{x,1},{integer,0}]}.
    {line,[{location,"search.erl",43}]}.
    {gc_bif,abs,{f,0},1,[{x,0}],{x,0}}.
    return.
  {label,22}.
    {line,[{location,"search.erl",45}]}.
    {gc_bif,'rem',{f,0},2,[{x,0},{x,1}],{x,0}}.
    {swap,{x,0},{x,1}}.
    {call_only,2,{f,21}}.


{function, word, 1, 24}.
  {label,23}.
    {line,[{location,"search.erl",47}]}.
    {func_info,{atom,search},{atom,word},1}.
  {label,24}.
    {select_val,{x,0},
                {f,28},
                {list,[{integer,0},
                       {f,27},
                       {integer,1},
                       {f,26},
                       {integer,2},
                       {f,25}]}}.
  {label,25}.
    {move,{literal,"two"},{x,0}}.
    return.
  {label,26}.
    {move,{literal,"one"},{x,0}}.
    return.
  {label,27}.
    {move,{literal,"none"},{x,0}}.
    return.
  {label,28}.
    {test,is_integer,{f,29},[{x,0}]}.
    {test,is_lt,{f,29},[{integer,2},{x,0}]}.
    {move,{literal,"many"},{x,0}}.
    return.
  {label,29}.
    {move,nil,{x,0}}.
    return.


{function, kind, 1, 31}.
  {label,30}.
    {line,[{location,"search.erl",56}]}.
    {func_info,{atom,search},{atom,kind},1}.
  {label,31}.
    {test,is_boolean,{f,32},[{x,0}]}.
    {move,{atom,boolean},{x,0}}.
    return.
  {label,32}.
    {test,is_atom,{f,33},[{x,0}]}.
    {move,{atom,atom},{x,0}}.
    return.
  {label,33}.
    {test,is_number,{f,34},[{x,0}]}.
    {move,{atom,number},{x,0}}.
    return.
  {label,34}.
    {test,is_eq_exact,{f,35},[{x,0},{literal,{}}]}.
    {move,{atom,unit},{x,0}}.
    return.
  {label,35}.
    {test,is_nonempty_list,{f,36},[{x,0}]}.
    {move,{atom,list},{x,0}}.
    return.
  {label,36}.
    {test,is_nil,{f,37},[{x,0}]}.
    {move,{atom,nil},{x,0}}.
    return.
  {label,37}.
    {test,is_tuple,{f,30},[{x,0}]}.
    {test_heap,3,1}.
    {bif,tuple_size,{f,0},[{x,0}],{x,0}}.
    {put_tuple2,{x,0},{list,[{atom,tuple},{x,0}]}}.
    return.


{function, days, 2, 39}.
  {label,38}.
    {line,[{location,"search.erl",65}]}.
    {func_info,{atom,search},{atom,days},2}.
  {label,39}.
    {test,is_eq_exact,{f,42},[{x,0},{atom,february}]}.
    {line,[{location,"search.erl",66}]}.
    {gc_bif,'rem',{f,0},2,[{x,1},{integer,4}],{x,0}}.
    {test,is_eq_exact,{f,41},[{x,0},{integer,0}]}.
    {line,[{location,"search.erl",66}]}.
    {gc_bif,'rem',{f,0},2,[{x,1},{integer,100}],{x,0}}.
    {test,is_eq_exact,{f,40},[{x,0},{integer,0}]}.
    {line,[{location,"search.erl",66}]}.
    {gc_bif,'rem',{f,0},2,[{x,1},{integer,400}],{x,0}}.
    {test,is_eq_exact,{f,41},[{x,0},{integer,0}]}.
  {label,40}.
    {move,{integer,29},{x,0}}.
    return.
  {label,41}.
    {move,{integer,28},{x,0}}.
    return.
  {label,42}.
    {allocate,0,1}.
    {move,{literal,[april,june,september,november]},{x,1}}.
    {line,[{location,"search.erl",71}]}.
    {call_ext,2,{extfunc,lists,member,2}}.
    {test,is_eq_exact,{f,43},[{x,0},{atom,true}]}.
    {move,{integer,30},{x,0}}.
    {deallocate,0}.
    return.
  {label,43}.
    {move,{integer,31},{x,0}}.
    {deallocate,0}.
    return.


{function, module_info, 0, 45}.
  {label,44}.
    {line,[]}.
    {func_info,{atom,search},{atom,module_info},0}.
  {label,45}.
    {move,{atom,search},{x,0}}.
    {line,[]}.
    {call_ext_only,1,{extfunc,erlang,get_module_info,1}}.


{function, module_info, 1, 47}.
  {label,46}.
    {line,[]}.
    {func_info,{atom,search},{atom,module_info},1}.
  {label,47}.
    {move,{x,0},{x,1}}.
    {move,{atom,search},{x,0}}.
    {line,[]}.
    {call_ext_only,2,{extfunc,erlang,get_module_info,2}}.
