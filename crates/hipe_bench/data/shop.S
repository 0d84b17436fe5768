{module, shop}.  %% version = 0

{exports, [{total,2},{kind,1},{safe,2},{append,2},{caught,1},{module_info,0},{module_info,1}]}.

{attributes, []}.

{labels, 27}.


{function, total, 2, 2}.
  {label,1}.
    {line,[{location,"shop.erl",4}]}.
    {func_info,{atom,shop},{atom,total},2}.
  {label,2}.
    {test,is_nonempty_list,{f,3},[{x,0}]}.
    {allocate,2,2}.
    {get_list,{x,0},{y,1},{x,0}}.
    {move,{x,1},{y,0}}.
    {call,2,{f,2}}.
    {line,[{location,"shop.erl",6}]}.
    {gc_bif,'+',{f,0},1,[{x,0},{y,1}],{x,0}}.
    {test_heap,4,1}.
    {put_tuple2,{x,0},{list,[{atom,ok},{x,0},{y,0}]}}.
    {deallocate,2}.
    return.
  {label,3}.
    {test,is_nil,{f,1},[{x,0}]}.
    {move,{x,1},{x,0}}.
    return.


{function, kind, 1, 5}.
  {label,4}.
    {line,[{location,"shop.erl",10}]}.
    {func_info,{atom,shop},{atom,kind},1}.
  {label,5}.
    {test,is_tuple,{f,8},[{x,0}]}.
    {select_tuple_arity,{x,0},{f,8},{list,[2,{f,6},3,{f,7}]}}.
  {label,6}.
    {get_tuple_element,{x,0},0,{x,1}}.
    {get_tuple_element,{x,0},1,{x,0}}.
    {select_val,{x,1},{f,9},{list,[{atom,open},{f,10},{atom,shut},{f,10},{integer,7},{f,11}]}}.
  {label,7}.
    {get_tuple_element,{x,0},2,{x,0}}.
    return.
  {label,8}.
    {move,{atom,none},{x,0}}.
    return.
  {label,9}.
    {line,[{location,"shop.erl",15}]}.
    {case_end,{x,1}}.
  {label,10}.
    {bif,'>',{f,0},[{x,0},{integer,9}],{x,0}}.
    return.
  {label,11}.
    {gc_bif,'-',{f,8},1,[{x,0},{integer,1}],{x,0}}.
    return.


{function, safe, 2, 13}.
  {label,12}.
    {line,[{location,"shop.erl",20}]}.
    {func_info,{atom,shop},{atom,safe},2}.
  {label,13}.
    {allocate,3,2}.
    {move,{x,1},{y,1}}.
    {'try',{y,2},{f,15}}.
    {line,[{location,"shop.erl",21}]}.
    {call,1,{f,5}}.
    {move,{x,0},{y,0}}.
    {try_end,{y,2}}.
    {move,{y,1},{x,1}}.
    {move,{y,0},{x,0}}.
    {call_last,2,{f,2},3}.
  {label,15}.
    {try_case,{y,2}}.
    {test,is_eq_exact,{f,16},[{x,0},{atom,throw}]}.
    {move,{x,1},{x,0}}.
    {deallocate,3}.
    return.
  {label,16}.
    {bif,raise,{f,0},[{x,2},{x,1}],{x,0}}.


{function, append, 2, 18}.
  {label,17}.
    {line,[{location,"shop.erl",30}]}.
    {func_info,{atom,shop},{atom,append},2}.
  {label,18}.
    {test,is_nonempty_list,{f,19},[{x,0}]}.
    {allocate,1,2}.
    {get_list,{x,0},{y,0},{x,0}}.
    {call,2,{f,18}}.
    {test_heap,2,1}.
    {put_list,{y,0},{x,0},{x,0}}.
    {deallocate,1}.
    return.
  {label,19}.
    {test,is_nil,{f,17},[{x,0}]}.
    {move,{x,1},{x,0}}.
    return.


{function, caught, 1, 21}.
  {label,20}.
    {line,[{location,"shop.erl",36}]}.
    {func_info,{atom,shop},{atom,caught},1}.
  {label,21}.
    {allocate,1,1}.
    {'catch',{y,0},{f,22}}.
    {gc_bif,'div',{f,0},1,[{integer,1},{x,0}],{x,0}}.
  {label,22}.
    {catch_end,{y,0}}.
    {deallocate,1}.
    return.


{function, module_info, 0, 24}.
  {label,23}.
    {line,[]}.
    {func_info,{atom,shop},{atom,module_info},0}.
  {label,24}.
    {move,{atom,shop},{x,0}}.
    {call_ext_only,1,{extfunc,erlang,get_module_info,1}}.


{function, module_info, 1, 26}.
  {label,25}.
    {line,[]}.
    {func_info,{atom,shop},{atom,module_info},1}.
  {label,26}.
    {move,{x,0},{x,1}}.
    {move,{atom,shop},{x,0}}.
    {call_ext_only,2,{extfunc,erlang,get_module_info,2}}.
